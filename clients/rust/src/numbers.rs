//! Client numbers that a program chooses: reused, and otherwise drawn at random. That is where it named the numbers, or an older server gives none.
//!
//! A number counts against the tenant's `--clients` for as long as the server runs. So a program reuses its numbers.

use std::collections::hash_map::RandomState;
use std::hash::{BuildHasher, Hasher};
use std::sync::{Mutex, MutexGuard, PoisonError};

/// The numbers that this program used and released, for each server and tenant; the last released one is last.
static REMEMBERED: Mutex<Vec<(String, Vec<u16>)>> = Mutex::new(Vec::new());

fn remembered() -> MutexGuard<'static, Vec<(String, Vec<u16>)>> {
    REMEMBERED.lock().unwrap_or_else(PoisonError::into_inner)
}

/// Remembers a number that was released.
pub(crate) fn give_back(place: &str, number: u16) {
    let mut remembered = remembered();
    match remembered.iter_mut().find(|(other, _)| other == place) {
        Some((_, numbers)) if numbers.contains(&number) => {}
        Some((_, numbers)) => numbers.push(number),
        None => remembered.push((place.into(), vec![number])),
    }
}

/// The allowed numbers in the order in which to try them: those that this program used before, and then the others at random. Returns also
/// how many were used before. They are no longer remembered: the caller gives back those that it does not use.
pub(crate) fn in_order(place: &str, allowed: &[u16]) -> (Vec<u16>, usize) {
    let mut order = Vec::with_capacity(allowed.len());
    if let Some((_, numbers)) = remembered().iter_mut().find(|(other, _)| other == place) {
        numbers.retain(|number| {
            let is_taken = allowed.contains(number);
            if is_taken && !order.contains(number) {
                order.push(*number);
            }
            !is_taken
        });
    }
    order.reverse();
    let had = order.len();
    order.extend(allowed.iter().filter(|number| !order[..had].contains(number)).copied().collect::<Vec<_>>());
    let mut random = Random::new();
    for place in (had + 1..order.len()).rev() {
        order.swap(place, had + random.below(place - had + 1));
    }
    (order, had)
}

/// A random generator, seeded differently in each run. It is not for secrets.
pub(crate) struct Random(u64);

impl Random {
    pub(crate) fn new() -> Random {
        Random(RandomState::new().build_hasher().finish())
    }

    /// A number below `most`, which is not 0.
    pub(crate) fn below(&mut self, most: usize) -> usize {
        self.0 = self.0.wrapping_mul(6364136223846793005).wrapping_add(1442695040888963407);
        ((self.0 >> 33) % (most as u64)) as usize
    }
}
