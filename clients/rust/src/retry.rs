//! What is retried.

use crate::error::Error;
use crate::numbers::Random;
use std::time::Duration;

/// What is retried, how often, and after which pause.
///
/// | failure | retried |
/// |---|---|
/// | no connection could be made, or it was closed before anything was sent | any call |
/// | the connection was lost before the answer came | reads; a write is [`Error::OutcomeUnknown`] |
/// | NoTenant (10), Late (25), OutOfMemory (30) of a write: it may be done | nothing; it is [`Error::OutcomeUnknown`] |
/// | Busy (12), as the answer to `hello` | any call |
/// | Stopped (19), Clash (20), Discarded (28): the call was not done | any call; after 19 on a new connection |
/// | the answer did not come before the timeout; any other refusal; a false answer | nothing |
///
/// A read that is answered `restart` is repeated at once, 100 times at most, whatever this policy says.
#[derive(Clone, Copy, Debug, PartialEq, Eq)]
pub struct Retry {
    /// How often a call is tried in all. 0 is the same as 1.
    pub attempts: u32,
    /// The first pause. Each further one is twice as long. A pause is drawn between half of that and all of it.
    pub pause: Duration,
    /// The longest pause.
    pub longest_pause: Duration,
}

impl Retry {
    /// Nothing is retried.
    pub const NONE: Retry = Retry { attempts: 1, pause: Duration::from_millis(0), longest_pause: Duration::from_millis(0) };

    /// Whether a call that failed with this error, after this many tries, is tried again.
    pub(crate) fn tries_again(&self, error: &Error, tried: u32) -> bool {
        let is_safe = match error {
            Error::CannotConnect(_) | Error::ConnectionLost(_) => true,
            Error::Refused { refusal, .. } => refusal.is_sent_again() || refusal.name == "Busy",
            _ => false,
        };
        is_safe && tried < self.attempts
    }

    /// The pause after this many tries.
    pub(crate) fn pause_after(&self, tried: u32) -> Duration {
        let doubled = 1u32.checked_shl(tried.saturating_sub(1)).unwrap_or(u32::MAX);
        let whole = self.pause.saturating_mul(doubled).min(self.longest_pause);
        whole / 2 + whole / 2000 * Random::new().below(1001) as u32
    }
}

impl Default for Retry {
    /// Eight tries, with pauses of at most 3.55 seconds in all: time enough for a server to restart.
    fn default() -> Retry {
        Retry { attempts: 8, pause: Duration::from_millis(50), longest_pause: Duration::from_secs(1) }
    }
}
