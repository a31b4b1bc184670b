//! Sessions for many threads.

use crate::client::Client;
use crate::config::Config;
use crate::error::Error;
use crate::{Item, Write};
use std::collections::VecDeque;
use std::fmt;
use std::ops::{Deref, DerefMut};
use std::sync::{Arc, Condvar, Mutex, MutexGuard, PoisonError};

/// A bounded number of sessions, shared by any number of threads.
///
/// Each call takes a free session, or waits for one until the timeout. Waiting threads are served in order. The calls are those of
/// [`Client`]; use [`Pool::take`] for a pipeline, or for several calls on one session.
pub struct Pool {
    config: Arc<Config>,
    size: usize,
    state: Mutex<State>,
}

#[derive(Default)]
struct State {
    idle: Vec<Client>,
    made: usize,
    waiting: VecDeque<Arc<Place>>,
}

/// Where a waiting thread receives its session.
#[derive(Default)]
struct Place {
    given: Mutex<Option<Client>>,
    is_given: Condvar,
}

/// A session of a pool. It goes back to the pool when this is dropped.
pub struct Taken<'a> {
    pool: &'a Pool,
    client: Client,
}

/// The address, the tenant, how many sessions it has at most, and how many threads wait for one.
impl fmt::Debug for Pool {
    fn fmt(&self, to: &mut fmt::Formatter<'_>) -> fmt::Result {
        let Config { host, port, tenant, .. } = &*self.config;
        let waiting = locked(&self.state).waiting.len();
        write!(to, "Pool {{ ramp://{host}:{port}/{tenant}, of {} clients, {waiting} waiting }}", self.size)
    }
}

/// As its client.
impl fmt::Debug for Taken<'_> {
    fn fmt(&self, to: &mut fmt::Formatter<'_>) -> fmt::Result {
        self.client.fmt(to)
    }
}

fn locked<T>(mutex: &Mutex<T>) -> MutexGuard<'_, T> {
    mutex.lock().unwrap_or_else(PoisonError::into_inner)
}

impl Pool {
    pub(crate) fn new(config: Config, size: usize) -> Pool {
        Pool { config: Arc::new(config), size: size.max(1), state: Mutex::default() }
    }

    /// Takes a session, for this thread alone until it is dropped.
    pub fn take(&self) -> Result<Taken<'_>, Error> {
        self.free().map(|client| Taken { pool: self, client })
    }

    /// As [`Client::put`].
    pub fn put<'a, I>(&self, items: I) -> Result<String, Error>
    where
        I: IntoIterator,
        I::Item: Into<Write<'a>>,
    {
        self.take()?.put(items)
    }

    /// As [`Client::put_blind`]. A pool has several sessions, so use it only where the server runs with `--newest`.
    pub fn put_blind<'a, I>(&self, items: I) -> Result<String, Error>
    where
        I: IntoIterator,
        I::Item: Into<Write<'a>>,
    {
        self.take()?.put_blind(items)
    }

    /// As [`Client::get`].
    pub fn get<K: AsRef<str>>(&self, keys: &[K]) -> Result<Vec<Item>, Error> {
        self.take()?.get(keys)
    }

    /// As [`Client::find`].
    pub fn find(&self, tag: &str) -> Result<Vec<Item>, Error> {
        self.take()?.find(tag)
    }

    /// As [`Client::put_text`].
    pub fn put_text(&self, key: &str, text: &str) -> Result<String, Error> {
        self.take()?.put_text(key, text)
    }

    /// As [`Client::get_text`].
    pub fn get_text(&self, key: &str) -> Result<Option<String>, Error> {
        self.take()?.get_text(key)
    }

    /// As [`Client::put_bytes`].
    pub fn put_bytes(&self, key: &str, bytes: &[u8]) -> Result<String, Error> {
        self.take()?.put_bytes(key, bytes)
    }

    /// As [`Client::get_bytes`].
    pub fn get_bytes(&self, key: &str) -> Result<Option<Vec<u8>>, Error> {
        self.take()?.get_bytes(key)
    }

    /// As [`Client::keep`].
    pub fn keep(&self, versions: u8) -> Result<u8, Error> {
        self.take()?.keep(versions)
    }

    fn free(&self) -> Result<Client, Error> {
        let place = {
            let mut state = locked(&self.state);
            if let Some(client) = state.idle.pop() {
                return Ok(client);
            }
            if state.made < self.size {
                state.made += 1;
                return Ok(Client::unconnected(self.config.clone()));
            }
            let place = Arc::new(Place::default());
            state.waiting.push_back(place.clone());
            place
        };
        let given = locked(&place.given);
        let waited = place.is_given.wait_timeout_while(given, self.config.timeout, |given| given.is_none());
        let given = waited.unwrap_or_else(PoisonError::into_inner).0.take();
        given.or_else(|| self.leave(&place)).ok_or(Error::PoolInUse { size: self.size })
    }

    /// Stops waiting. A session may have arrived in the meantime.
    fn leave(&self, place: &Arc<Place>) -> Option<Client> {
        locked(&self.state).waiting.retain(|other| !Arc::ptr_eq(other, place));
        locked(&place.given).take()
    }

    fn give_back(&self, client: Client) {
        let mut state = locked(&self.state);
        match state.waiting.pop_front() {
            Some(place) => {
                *locked(&place.given) = Some(client);
                place.is_given.notify_one();
            }
            None => state.idle.push(client),
        }
    }
}

impl Deref for Taken<'_> {
    type Target = Client;

    fn deref(&self) -> &Client {
        &self.client
    }
}

impl DerefMut for Taken<'_> {
    fn deref_mut(&mut self) -> &mut Client {
        &mut self.client
    }
}

impl Drop for Taken<'_> {
    fn drop(&mut self) {
        let client = std::mem::replace(&mut self.client, Client::unconnected(self.pool.config.clone()));
        self.pool.give_back(client);
    }
}
