//! Runs about partition specs and schemas with names: their pools, starts, proposed updates, refusals that are provoked, and damage.

mod clashing;
mod closing;
mod damage;
mod pools;
mod propose;
mod provoke;
mod start;

pub use closing::closing;
pub use damage::{damage_offer, damage_schema, damage_start};
pub use pools::Pools;
pub use propose::{add_schema, offered_fields, propose};
pub use provoke::{lead, prepare, update};
pub use start::{start, start_fields};

use super::random::Random;
use super::{runs, tolerances};
use crate::case::{Case, DEFAULT_SPEC_ID, LAST_PARTITION_ID, More, Run, Schema, Spec};

/// The numbers that such a run is refused with on purpose, each as often as it is to come.
const NUMBERS: [(u8, usize); 11] = [
    (1, 6),
    (3, 5),
    (14, 1),
    (15, 2),
    (18, 4),
    (19, 2),
    (20, 1),
    (31, 12),
    (32, 6),
    (33, 4),
    (34, 2),
];

/// Four in ten aim at a number that updates of specs are refused with.
pub fn given(random: &mut Random) -> Case {
    let mut more = More {
        tolerance: random.percent(5).then(|| tolerances::tolerance(random)),
        statistics: random.percent(5),
        schemas: true,
        specs: true,
        ..More::default()
    };
    let run = match random.percent(40) {
        true => {
            let number = random.weighted(&NUMBERS);
            runs::refused(random, &more, number)
        }
        false => runs::run(random, &more),
    };
    leave_out(random, &run, &mut more);
    let bare = more.tolerance.is_none() && more.tables(&run.metadata).is_empty();
    match bare && random.percent(50) {
        true => Case::Run(Box::new(run)),
        false => Case::RunGiven(Box::new(run), more),
    }
}

/// Mostly leaves out a table that is what it is without.
pub fn leave_out(random: &mut Random, run: &Run, more: &mut More) {
    let m = &run.metadata;
    let unpartitioned = m.specs == [Spec::unpartitioned()]
        && m.default_spec_id == DEFAULT_SPEC_ID
        && m.last_partition_id == LAST_PARTITION_ID;
    let unnamed = m.schemas.iter().all(Schema::is_unnamed);
    more.schemas = !unnamed || random.percent(20);
    more.specs = !unpartitioned || random.percent(20);
}
