//! One update of partition specs or of a named schema that suits the metadata as it stands.

use super::Pools;
use super::start::{bears, field, named};
use crate::case::{Flagged, Metadata, PartitionField, Schema, SchemaField, Spec, Update, capacity};
use crate::generate::propose::{Now, current_schema, known_or, of_kind};
use crate::generate::random::Random;
use crate::generate::world::World;
use crate::port::redundant;

/// Updates by kind, each as often as it is to come. Of the schemas, 9 becomes 21 where there are names.
const KINDS: [(u8, usize); 6] = [(18, 10), (19, 6), (20, 4), (21, 5), (9, 2), (10, 3)];

pub fn propose(random: &mut Random, now: &Now, pools: &Pools) -> Update {
    let m = &now.metadata;
    match random.weighted(&KINDS) {
        18 => Update::AddPartitionSpec(offer(random, now, pools)),
        19 => Update::SetDefaultPartitionSpec(default_spec(random, m)),
        20 => Update::RemovePartitionSpecs(removal(random, m)),
        21 => Update::AddNamedSchema(schema(random, now, pools)),
        kind => of_kind(random, now, kind),
    }
}

/// The update that offers this schema, written without names where it has none.
pub fn add_schema(schema: Schema) -> Update {
    match schema.is_unnamed() {
        true => Update::AddSchema(schema),
        false => Update::AddNamedSchema(schema),
    }
}

/// The fields with these ids in an offer.
pub fn offered_fields(random: &mut Random, world: &World, ids: Vec<i32>) -> Vec<SchemaField> {
    match world.specs.as_ref().filter(|_| random.percent(80)) {
        Some(pools) => named(random, pools, ids),
        None => ids.into_iter().map(SchemaField::unnamed).collect(),
    }
}

/// A held schema again, with one field renamed or of the other type, or others.
fn schema(random: &mut Random, now: &Now, pools: &Pools) -> Schema {
    let held = random.one_of(&now.metadata.schemas);
    let mut fields = match random.percent(60) {
        true => held.fields,
        false => named(random, pools, now.world.field_ids.clone()),
    };
    let names: Vec<_> = fields.iter().map(|f| f.name.clone()).collect();
    let place = random.below(fields.len().max(1));
    if let Some(field) = fields.get_mut(place).filter(|_| random.percent(50)) {
        let new = random.one_of(&pools.field_names);
        match names.contains(&new) {
            true => field.field_type = 3 - field.field_type,
            false => field.name = new,
        }
    }
    let id = random.one_of(&[0, 0, 1, 7, i32::MAX]);
    Schema { id, fields }
}

/// A spec to be added: a held one again, none of whose ids is given, or all, or others; no fields; or new fields.
pub fn offer(random: &mut Random, now: &Now, pools: &Pools) -> Spec {
    let m = &now.metadata;
    let mut fields = match random.below(100) {
        0..30 => random.one_of(&m.specs).fields,
        30..36 => Vec::new(),
        _ => new_fields(random, now, pools),
    };
    give_ids(random, m, &mut fields);
    let id = random.one_of(&[0, 0, 1, 7, i32::MAX]);
    Spec { id, fields }
}

/// One to eight fields, mostly with unequal names and none redundant, often of a source and transform that a held field has.
fn new_fields(random: &mut Random, now: &Now, pools: &Pools) -> Vec<PartitionField> {
    let m = &now.metadata;
    let held: Vec<PartitionField> = m.specs.iter().flat_map(|s| s.fields.clone()).collect();
    let count = random.one_of(&[1, 1, 1, 2, 2, 3, capacity::SPEC_FIELDS]);
    let mut fields: Vec<PartitionField> = Vec::new();
    for _ in 0..count {
        let mut new = field(random, now.world, pools, current_schema(m));
        if let Some(like) = random.any_of(&held).filter(|_| random.percent(40)) {
            new = PartitionField {
                name: new.name,
                ..like
            };
        }
        let fits = |f: &PartitionField| f.name != new.name && !redundant(f, &new);
        if fields.iter().all(fits) || random.percent(2) {
            fields.push(new);
        }
    }
    fields
}

/// Which fields of an offer are given ids: none, those of a sequence, some, or as they are.
fn give_ids(random: &mut Random, m: &Metadata, fields: &mut [PartitionField]) {
    let few = [1000, 1001, 1002, 1003, 1005, 5000, 1, i32::MAX];
    let share = match random.below(10) {
        0..5 => 0,
        5 if m.version == 1 => {
            let ids = (1000..).map(Some).map(Flagged::of);
            return fields
                .iter_mut()
                .zip(ids)
                .for_each(|(f, id)| f.field_id = id);
        }
        5 => return,
        6 => 100,
        _ => 40,
    };
    for field in fields {
        let near = m
            .last_partition_id
            .saturating_add(1 + random.below(3) as i32);
        let id = match random.percent(60) {
            true => near,
            false => random.one_of(&few),
        };
        field.field_id = Flagged::of(random.percent(share).then_some(id));
    }
}

/// Mostly one that the current schema bears.
fn default_spec(random: &mut Random, m: &Metadata) -> i32 {
    let schema = current_schema(m);
    let borne: Vec<i32> = m
        .specs
        .iter()
        .filter(|s| bears(schema, s))
        .map(|s| s.id)
        .collect();
    let all: Vec<i32> = m.specs.iter().map(|s| s.id).collect();
    match borne.is_empty() || random.percent(10) {
        true => known_or(random, &all, -1),
        false => known_or(random, &borne, -1),
    }
}

/// Mostly spares the default; at times no id, at times one that is not held.
fn removal(random: &mut Random, m: &Metadata) -> Vec<i32> {
    let mut ids: Vec<i32> = m.specs.iter().map(|s| s.id).collect();
    ids.extend([3, 40]);
    if random.percent(95) {
        ids.retain(|id| *id != m.default_spec_id);
    }
    let count = random.one_of(&[0, 1, 1, 2, 3, capacity::REMOVAL_IDS]);
    let mut ids = random.some_of(count, &ids);
    random.shuffle(&mut ids);
    ids
}
