//! Which puts can be read: those whose stamp is above all that was done at their keys before they were sent.

use std::sync::atomic::{AtomicU64, Ordering};

/// The greatest stamp that was done at each key, as far as this program saw, and how many puts stand above it.
pub struct Newest {
    done: Vec<AtomicU64>,
    items: usize,
    puts: AtomicU64,
    above: AtomicU64,
}

/// A stamp `COUNTER.CLIENT` as a number that has its order. A counter has at most 40 bits, and a client 16.
pub fn rank(stamp: &[u8]) -> Option<u64> {
    let (counter, client) = std::str::from_utf8(stamp).ok()?.split_once('.')?;
    Some(counter.parse::<u64>().ok()? << 16 | client.parse::<u64>().ok()?)
}

impl Newest {
    /// Of this number of keys, and of items in a put.
    pub fn new(keys: usize, items: usize) -> Newest {
        Newest { done: (0..keys).map(|_| AtomicU64::new(0)).collect(), items, puts: AtomicU64::new(0), above: AtomicU64::new(0) }
    }

    fn of_put(&self, first: usize) -> impl Iterator<Item = &AtomicU64> {
        (0..self.items).map(move |place| &self.done[(first + place) % self.done.len()])
    }

    /// The greatest stamp that is done at the keys of a put, the first of which is given.
    pub fn before(&self, first: usize) -> u64 {
        self.of_put(first).map(|done| done.load(Ordering::SeqCst)).max().unwrap_or(0)
    }

    /// Notes a put that was answered `done` by this stamp, and had this one before it.
    pub fn note(&self, first: usize, before: u64, stamp: u64) {
        self.puts.fetch_add(1, Ordering::Relaxed);
        self.above.fetch_add(u64::from(stamp > before), Ordering::Relaxed);
        self.of_put(first).for_each(|done| {
            done.fetch_max(stamp, Ordering::SeqCst);
        });
    }

    /// How many puts stand above what was there, and how many were noted, since this was asked last.
    pub fn taken(&self) -> (u64, u64) {
        (self.above.swap(0, Ordering::SeqCst), self.puts.swap(0, Ordering::SeqCst))
    }
}

#[cfg(test)]
mod tests {
    use super::*;

    #[test]
    fn a_put_below_what_is_there_does_not_count() {
        let newest = Newest::new(3, 2);
        for (first, stamp, wanted) in [(0, "2.1", (1, 1)), (1, "1.9", (0, 1)), (2, "2.2", (1, 1)), (2, "2.2", (0, 1))] {
            let stamp = rank(stamp.as_bytes()).unwrap();
            newest.note(first, newest.before(first), stamp);
            assert_eq!(newest.taken(), wanted, "{first} {stamp}");
        }
        assert_eq!((rank(b"1"), rank(b"x.1"), rank(b"1.1")), (None, None, Some(65537)));
    }
}
