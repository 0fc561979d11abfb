//! Runs and time windows that are given a tolerance.

use super::random::Random;
use super::runs;
use crate::case::{Case, More, TOLERANCES};

pub fn given(random: &mut Random) -> Case {
    match random.percent(75) {
        true => run(random),
        false => time_window(random),
    }
}

/// Both ends, the default and the numbers beside them, or any.
pub fn tolerance(random: &mut Random) -> i64 {
    let named = [0, 1, 59_999, 60_000, 60_001, 3_599_999, 3_600_000];
    match random.percent(75) {
        true => random.one_of(&named),
        false => random.below(*TOLERANCES.end() as usize + 1) as i64,
    }
}

pub fn outside(random: &mut Random) -> i64 {
    random.one_of(&[-1, -1, -60_000, i64::MIN, 3_600_001, 3_600_001, i64::MAX])
}

/// One in ten has a tolerance outside the bounds, some with what is refused before that (1, 2) or behind it (3); one in ten is to be
/// refused with 7 or 8; some are given nothing.
fn run(random: &mut Random) -> Case {
    let mut more = More {
        tolerance: random.percent(97).then(|| tolerance(random)),
        ..More::default()
    };
    let chance = random.below(20);
    let run = match chance {
        0 => {
            let number = random.one_of(&[1, 2, 3]);
            runs::refused(random, &more, number)
        }
        2 | 3 => {
            let number = random.one_of(&[7, 8]);
            runs::refused(random, &more, number)
        }
        _ => runs::run(random, &more),
    };
    if chance < 2 {
        more.tolerance = Some(outside(random));
    }
    Case::RunGiven(Box::new(run), more)
}

/// A time on the tolerance or a millisecond beside it, also where the sum is no 64-bit number; or any.
fn time_window(random: &mut Random) -> Case {
    let ends = [
        i64::MIN,
        i64::MIN + 1,
        -60_000,
        -1,
        0,
        60_000,
        i64::MAX - 1,
        i64::MAX,
    ];
    let any = |random: &mut Random| match random.percent(60) {
        true => random.one_of(&ends),
        false => random.number() as i64 >> random.below(64),
    };
    let tolerance = match random.percent(50) {
        true => tolerance(random),
        false => any(random),
    };
    let last = any(random);
    let time = match random.percent(70) {
        true => last
            .wrapping_sub(tolerance)
            .wrapping_add(random.one_of(&[-1, 0, 1])),
        false => any(random),
    };
    Case::TimeWindowGiven {
        time,
        last,
        tolerance,
    }
}
