//! Runs that are given tables of statistics files.

use super::random::Random;
use super::{runs, tolerances};
use crate::case::{Case, More};

/// One table or both, at times a tolerance too. One run in ten is to be refused for a full table, one in ten for what is not well formed.
pub fn given(random: &mut Random) -> Case {
    let (statistics, partition_statistics) =
        random.one_of(&[(true, true), (true, true), (true, false), (false, true)]);
    let more = More {
        tolerance: random.percent(20).then(|| tolerances::tolerance(random)),
        statistics,
        partition_statistics,
        ..More::default()
    };
    let run = match random.below(20) {
        0 => runs::refused(random, &more, 1),
        1 => runs::refused(random, &more, 3),
        2 | 3 => runs::refused(random, &more, 19),
        _ => runs::run(random, &more),
    };
    Case::RunGiven(Box::new(run), more)
}
