//! Stand-in for the constant of a minute, by which the published checks of times look back. They use it negated and not otherwise, so
//! its place can be taken by something whose negation is what the harness set: these same checks then look back by any tolerance.

use std::cell::Cell;
use std::ops::Neg;

/// The published constant's own value, in milliseconds.
pub const MINUTE_MS: i64 = 60_000;

thread_local! {
    static TOLERANCE_MS: Cell<i64> = const { Cell::new(MINUTE_MS) };
}

/// Sets the tolerance of the run that follows. It is not the smallest number, which has no negation.
pub fn set_tolerance(tolerance_ms: i64) {
    TOLERANCE_MS.set(tolerance_ms);
}

pub struct Minute;

pub const ONE_MINUTE_MS: Minute = Minute;

impl Neg for Minute {
    type Output = i64;

    fn neg(self) -> i64 {
        -TOLERANCE_MS.get()
    }
}
