//! What a part of a bench amounts to.

use std::time::{Clock, Duration};

/// How many calls of a part were answered as they should be, and how long they took.
#[derive(Clone, Copy)]
pub struct Made {
    pub count: u64,
    pub nanoseconds: u128,
}

/// Returns the reading of the monotonic clock; 0 if it fails.
pub fn now(rt: &impl Clock) -> Duration {
    rt.monotonic().unwrap_or(Duration::ZERO)
}

/// Returns the result of `count` calls since the clock read `begun`.
pub fn made_since(rt: &impl Clock, begun: Duration, count: u64) -> Made {
    let elapsed = now(rt).saturating_sub(begun);
    Made {
        count,
        nanoseconds: elapsed.as_nanos(),
    }
}
