//! Many threads over one pool, whose server is restarted under them. Each get is right, and each put's outcome is reported truly.
//!
//! RAMP_SECONDS and RAMP_THREADS make it longer and wider: 4 seconds and 40 threads where nothing is said.

mod common;

use common::{Server, PATIENCE};
use ramp_client::{Config, Error, Group, Item, Pool};
use std::sync::atomic::{AtomicBool, AtomicU64, Ordering};
use std::sync::Mutex;
use std::thread;
use std::time::Duration;

fn setting(name: &str, default: u64) -> u64 {
    std::env::var(name).ok().and_then(|text| text.parse().ok()).unwrap_or(default)
}

/// What a thread knows of its two items, which it alone writes.
struct History {
    keys: [String; 2],
    /// The write that was done last, and the server's starts before it began.
    done: Option<(u64, u64)>,
    /// Later writes, of which nobody knows whether they are done.
    unknown: Vec<u64>,
    next: u64,
}

impl History {
    fn new(thread: usize) -> History {
        History { keys: [format!("a{thread}"), format!("b{thread}")], done: None, unknown: Vec::new(), next: 1 }
    }

    /// Whether these items can be what is there, when the server was started so often.
    fn check(&self, items: &[Item], starts: u64) -> Result<(), String> {
        if items[0].value != items[1].value || items[0].stamp != items[1].stamp {
            return Err(format!("half of a write: {items:?}"));
        }
        let value: Option<u64> = items[0].value.as_ref().map(|value| value.parse().expect("a number"));
        let is_right = match (value, self.done) {
            (Some(value), Some((done, _))) if value == done => true,
            (Some(value), _) => self.unknown.contains(&value),
            (None, None) => true,
            (None, Some((_, before))) => before != starts,
        };
        Some(()).filter(|()| is_right).ok_or_else(|| format!("{value:?} is there, {:?} was done, and {:?} may be", self.done, self.unknown))
    }
}

/// Puts and gets until it is asked to stop. Gives how many puts were done, and of how many the outcome was unknown.
fn work(pool: &Pool, thread: usize, starts: &AtomicU64, is_over: &AtomicBool) -> Result<(u64, u64), String> {
    let mut history = History::new(thread);
    let (mut done, mut unknown) = (0, 0);
    while !is_over.load(Ordering::SeqCst) {
        let before = starts.load(Ordering::SeqCst);
        let value = history.next.to_string();
        history.next += 1;
        match pool.put(history.keys.iter().map(|key| (key.as_str(), value.as_str()))) {
            Ok(_) => {
                history.done = Some((history.next - 1, before));
                history.unknown.clear();
                done += 1;
            }
            Err(error) if error.group() == Group::Unknown => {
                history.unknown.push(history.next - 1);
                unknown += 1;
            }
            Err(error) if matches!(error.group(), Group::Lost | Group::TryAgain) => {}
            Err(error) => return Err(error.to_string()),
        }
        match pool.get(&history.keys) {
            Ok(items) => history.check(&items, starts.load(Ordering::SeqCst))?,
            Err(error) if matches!(error.group(), Group::Lost | Group::TryAgain) => {}
            Err(error) => return Err(error.to_string()),
        }
    }
    Ok((done, unknown))
}

#[test]
fn many_threads_over_a_server_that_is_restarted_twice() {
    let seconds = setting("RAMP_SECONDS", 4);
    let threads = setting("RAMP_THREADS", 40) as usize;
    let words = ["--stay", "--sessions", "64", "--clients", "64", "--epoch", "1000", "t"];
    let mut server = Server::start(&words);
    let pool = Config::new(&server.url("t")).expect("an address").timeout(Duration::from_secs(20)).pool(16);
    let (starts, is_over) = (AtomicU64::new(0), AtomicBool::new(false));
    let told: Vec<Result<(u64, u64), String>> = thread::scope(|scope| {
        let working: Vec<_> = (0..threads)
            .map(|thread| {
                let (pool, starts, is_over) = (&pool, &starts, &is_over);
                scope.spawn(move || work(pool, thread, starts, is_over))
            })
            .collect();
        for _ in 0..2 {
            thread::sleep(Duration::from_millis(seconds * 1000 / 3));
            // A put that begins from here on may be done by the next server.
            starts.fetch_add(1, Ordering::SeqCst);
            server.kill();
            let port = server.port;
            server = Server::at(port, &words);
            starts.fetch_add(1, Ordering::SeqCst);
        }
        thread::sleep(Duration::from_millis(seconds * 1000 / 3));
        is_over.store(true, Ordering::SeqCst);
        working.into_iter().map(|thread| thread.join().unwrap_or_else(|_| Err("a thread ended".into()))).collect()
    });
    let wrong: Vec<&String> = told.iter().filter_map(|told| told.as_ref().err()).collect();
    assert!(wrong.is_empty(), "{wrong:?}");
    let sum = |of: fn(&(u64, u64)) -> u64| told.iter().flatten().map(of).sum::<u64>();
    println!("{threads} threads, {seconds} s: {} puts done, {} unknown", sum(|it| it.0), sum(|it| it.1));
    assert!(told.iter().flatten().all(|(done, _)| *done > 0), "{told:?}");
    drop(pool);
    assert_eq!(server.verdict(), "checked t yes\n");
}

#[test]
fn a_session_is_waited_for_and_given_in_turn() {
    let server = Server::start(&["--sessions", "2", "t"]);
    let pool = Config::new(&server.url("t")).expect("an address").timeout(Duration::from_secs(2)).pool(1);
    let taken = pool.take().expect("a session");
    assert_eq!(pool.get(&["x"]), Err(Error::PoolInUse { size: 1 }));
    drop(taken);
    pool.put([("x", "1")]).expect("a stamp");
    // Whoever leaves a call in its middle leaves no answer for the next one.
    let left = thread::scope(|scope| {
        scope
            .spawn(|| {
                let _taken = pool.take().expect("a session");
                panic!("a test's own");
            })
            .join()
    });
    assert!(left.is_err());
    let items = pool.get(&["x"]).expect("an item");
    assert_eq!(items[0].value.as_deref(), Some("1"));
    drop(pool);
    assert_eq!(server.verdict(), "settled t yes\n");
}

#[test]
fn waiting_threads_are_served_in_order() {
    let server = Server::start(&["t"]);
    let pool = Config::new(&server.url("t")).expect("an address").timeout(PATIENCE).pool(1);
    let order = Mutex::new(Vec::new());
    thread::scope(|scope| {
        let taken = pool.take().expect("a session");
        for place in 1..=5 {
            let (pool, order) = (&pool, &order);
            scope.spawn(move || {
                let _taken = pool.take().expect("a session");
                order.lock().expect("the order").push(place);
            });
            // The next one comes once this one waits.
            let is_seen = (0..10_000).any(|_| {
                thread::sleep(Duration::from_millis(1));
                format!("{pool:?}").ends_with(&format!(" {place} waiting }}"))
            });
            assert!(is_seen, "{place} do not wait: {pool:?}");
        }
        drop(taken);
    });
    assert_eq!(order.into_inner().expect("the order"), [1, 2, 3, 4, 5]);
}
