//! Updates of specs and named schemas that the metadata as it stands refuses with a given number.

use super::Pools;
use super::clashing::{clashing, taken_name};
use super::closing::{misfit, misfit_default};
use super::propose::offer;
use super::start::field;
use crate::case::{BUCKET, Flagged, IDENTITY, Metadata, PartitionField, Spec, Update, capacity};
use crate::generate::propose::{Now, current_schema};
use crate::generate::random::Random;

/// What a start needs for this number and would seldom have by itself.
pub fn prepare(random: &mut Random, m: &mut Metadata, number: u8) {
    match number {
        18 if random.percent(40) => {
            let last = m.specs.last_mut().expect("a start has a spec");
            if last.id != m.default_spec_id {
                last.id = i32::MAX;
            }
        }
        18 => m.last_partition_id = random.one_of(&[i32::MAX, i32::MAX, i32::MAX - 1]),
        19 => fill(m),
        33 => m.version = 1,
        _ => (),
    }
    // 19 stands behind 18 and 33, and 33 behind 18.
    if [18, 33].contains(&number) && random.percent(15) {
        fill(m);
    }
    if number == 18 && random.percent(20) {
        m.version = 1;
    }
}

/// Fills the table with specs that are equal to no other.
fn fill(m: &mut Metadata) {
    let mut next = m.specs.last().map_or(0, |s| s.id);
    while m.specs.len() < capacity::SPECS && next < i32::MAX {
        next += 1;
        let field = PartitionField {
            source_id: 1,
            field_id: Flagged::of(Some(1000)),
            name: format!("f{next}").into_bytes(),
            transform: IDENTITY,
            number: 0,
        };
        let fields = vec![field];
        m.specs.push(Spec { id: next, fields });
    }
}

/// What may stand before the refused update: for 15 the last added is removed.
pub fn lead(random: &mut Random, now: &Now, pools: &Pools, number: u8) -> Vec<Update> {
    let highest = now.metadata.specs.last().map_or(0, |s| s.id);
    match number {
        15 if random.percent(60) => vec![
            Update::AddPartitionSpec(new_spec(random, now, pools)),
            Update::RemovePartitionSpecs(vec![highest.saturating_add(1)]),
        ],
        _ => Vec::new(),
    }
}

/// An update that may be refused with this number, of those that updates of specs and named schemas are refused with.
pub fn update(random: &mut Random, now: &Now, pools: &Pools, number: u8) -> Option<Update> {
    let m = &now.metadata;
    Some(match number {
        14 => Update::SetDefaultPartitionSpec(-1),
        15 => Update::SetDefaultPartitionSpec(random.one_of(&[-1, -1, 40, i32::MAX])),
        18 if m.specs.last()?.id == i32::MAX && random.percent(80) => {
            Update::AddPartitionSpec(new_spec(random, now, pools))
        }
        18 => Update::AddPartitionSpec(at_the_end(random, now, pools)),
        19 => Update::AddPartitionSpec(new_spec(random, now, pools)),
        31 if random.percent(15) => taken_name(random, now)?,
        31 => Update::AddPartitionSpec(clashing(random, now, pools)?),
        32 if random.percent(40) => misfit_default(random, m)?,
        32 => Update::AddPartitionSpec(misfit(random, now, pools)),
        33 => Update::AddPartitionSpec(out_of_sequence(random, now, pools)),
        34 => Update::RemovePartitionSpecs(with_default(random, m)),
        _ => return None,
    })
}

/// Fields that mostly no held spec has.
pub fn new_spec(random: &mut Random, now: &Now, pools: &Pools) -> Spec {
    let mut spec = offer(random, now, pools);
    if let Some(first) = spec.fields.first_mut() {
        first.name = format!("new{}", random.below(9)).into_bytes();
    }
    spec
}

/// A fresh id is wanted past the largest: of the table's last, or of one that is given.
fn at_the_end(random: &mut Random, now: &Now, pools: &Pools) -> Spec {
    let mut spec = new_spec(random, now, pools);
    let fresh = PartitionField {
        name: b"fresh".to_vec(),
        transform: BUCKET,
        number: 90 + random.below(9) as i32,
        ..field(random, now.world, pools, current_schema(&now.metadata))
    };
    if let Some(first) = spec.fields.first_mut().filter(|_| random.percent(50)) {
        first.field_id = Flagged::of(Some(i32::MAX));
    }
    spec.fields.truncate(capacity::SPEC_FIELDS - 1);
    spec.fields.push(fresh);
    spec
}

/// Ids that do not count up from 1000.
fn out_of_sequence(random: &mut Random, now: &Now, pools: &Pools) -> Spec {
    let mut spec = new_spec(random, now, pools);
    let ids = [1001, 1001, 1, 999, 1002, 5000, i32::MAX];
    let place = random.below(spec.fields.len().max(1));
    if let Some(field) = spec.fields.get_mut(place).filter(|_| random.percent(60)) {
        field.field_id = Flagged::of(Some(random.one_of(&ids)));
    }
    spec
}

fn with_default(random: &mut Random, m: &Metadata) -> Vec<i32> {
    let ids: Vec<i32> = m.specs.iter().map(|s| s.id).collect();
    let mut ids = random.some_of(3, &ids);
    ids.push(m.default_spec_id);
    random.shuffle(&mut ids);
    ids
}
