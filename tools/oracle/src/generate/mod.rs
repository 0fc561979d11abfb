//! A seeded generator of cases: deep accepted runs, every refusal, boundaries, damaged records, walks, the small entry points,
//! tolerances, tables of statistics files, partition specs, and two offices.

mod damage;
mod draft;
mod leaves;
mod offices;
mod propose;
mod provoke;
mod random;
mod runs;
mod specs;
mod start;
mod statistics;
mod tolerances;
mod walks;
mod world;

use std::io::Write;

use crate::case::{Case, Line, More};
use random::Random;

#[derive(Clone, Copy)]
pub enum Kind {
    Run,
    Walk,
    Limit,
    Tolerance,
    Statistics,
    Specs,
    Offices,
    Mixed,
}

/// What a mixed lot has, each as often as it is to come. Offices are a lot of their own, so that mixed ones stay what they were.
const MIXED: [(Kind, usize); 6] = [
    (Kind::Run, 6),
    (Kind::Walk, 2),
    (Kind::Limit, 2),
    (Kind::Tolerance, 2),
    (Kind::Statistics, 2),
    (Kind::Specs, 6),
];

pub fn generate(seed: u64, count: u64, kind: Kind, mut output: impl Write) -> std::io::Result<()> {
    let mut random = Random::new(seed);
    for _ in 0..count {
        writeln!(output, "{}", Line::of_case(&case(&mut random, kind)))?;
    }
    Ok(())
}

fn case(random: &mut Random, kind: Kind) -> Case {
    match kind {
        Kind::Run => Case::Run(Box::new(runs::run(random, &More::default()))),
        Kind::Walk => walks::walk(random),
        Kind::Limit => leaves::leaf(random),
        Kind::Tolerance => tolerances::given(random),
        Kind::Statistics => statistics::given(random),
        Kind::Specs => specs::given(random),
        Kind::Offices => offices::given(random),
        Kind::Mixed => {
            let kind = random.weighted(&MIXED);
            case(random, kind)
        }
    }
}
