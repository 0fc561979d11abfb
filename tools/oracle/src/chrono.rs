//! Stand-in for the `chrono` crate: a clock that shows what the harness set.

use std::cell::Cell;

thread_local! {
    static NOW: Cell<i64> = const { Cell::new(0) };
}

/// Sets the reading of the run that follows.
pub fn set_clock(timestamp_ms: i64) {
    NOW.set(timestamp_ms);
}

pub struct Utc;

pub struct DateTime(i64);

impl Utc {
    pub fn now() -> DateTime {
        DateTime(NOW.get())
    }
}

impl DateTime {
    pub fn timestamp_millis(&self) -> i64 {
        self.0
    }
}
