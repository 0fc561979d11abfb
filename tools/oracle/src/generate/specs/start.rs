//! Well-formed specs and named schemas of a start.

use std::sync::Arc;

use super::Pools;
use crate::case::{
    DEFAULT_SPEC_ID, Flagged, LAST_PARTITION_ID, PartitionField, Schema, SchemaField, Spec,
    TIMESTAMP, capacity,
};
use crate::generate::random::Random;
use crate::generate::world::World;
use crate::port::redundant;
use crate::published::to_published as to;

/// The specs, which of them is the default, and the last partition id.
pub fn start(random: &mut Random, world: &World, current: &Schema) -> (Vec<Spec>, i32, i32) {
    match world.specs.as_ref().filter(|pools| !pools.unpartitioned) {
        Some(pools) => {
            let specs = specs(random, world, pools, current);
            let default = default_spec(random, &specs, current);
            let last = last_partition_id(random, &specs);
            (specs, default, last)
        }
        None => (
            vec![Spec::unpartitioned()],
            DEFAULT_SPEC_ID,
            LAST_PARTITION_ID,
        ),
    }
}

/// The start's fields with these ids.
pub fn start_fields(random: &mut Random, world: &World, ids: Vec<i32>) -> Vec<SchemaField> {
    match world.specs.as_ref().filter(|pools| !pools.unnamed) {
        Some(pools) => named(random, pools, ids),
        None => ids.into_iter().map(SchemaField::unnamed).collect(),
    }
}

/// Mostly the fields of the pool; at times renamed or of the other type. Names are unequal.
pub fn named(random: &mut Random, pools: &Pools, ids: Vec<i32>) -> Vec<SchemaField> {
    let mut fields: Vec<SchemaField> = Vec::new();
    for id in ids {
        let usual = pools.fields.iter().find(|f| f.id == id).cloned();
        let mut field = usual.unwrap_or_else(|| SchemaField::unnamed(id));
        if random.percent(12) {
            field.name = random.one_of(&pools.field_names);
        }
        if random.percent(12) {
            field.field_type = 3 - field.field_type;
        }
        if fields.iter().any(|f| f.name == field.name) {
            field.name = format!("c{id}").into_bytes();
        }
        fields.push(field);
    }
    fields
}

/// Ids ascending with gaps, at times up to the largest; at times two are equal but for their fields' ids.
fn specs(random: &mut Random, world: &World, pools: &Pools, current: &Schema) -> Vec<Spec> {
    let mut specs: Vec<Spec> = Vec::new();
    let mut id = random.below(3) as i32;
    for _ in 0..random.fill(capacity::SPECS).max(1) {
        let fields = match random.any_of(&specs) {
            Some(twin) if random.percent(20) => twin.fields,
            _ => fields(random, world, pools, current),
        };
        let fields = with_ids(random, &specs, fields);
        specs.push(Spec { id, fields });
        id += 1 + random.below(2) as i32;
    }
    if let (Some(last), true) = (specs.last_mut(), random.percent(6)) {
        last.id = random.one_of(&[i32::MAX, i32::MAX, i32::MAX - 1]);
    }
    specs
}

/// None to eight fields over the current schema, at times over other fields; no two with one name, none redundant. They have no ids yet.
fn fields(
    random: &mut Random,
    world: &World,
    pools: &Pools,
    current: &Schema,
) -> Vec<PartitionField> {
    let count = random.one_of(&[0, 1, 1, 1, 2, 2, 3, capacity::SPEC_FIELDS]);
    let mut fields: Vec<PartitionField> = Vec::new();
    for _ in 0..count {
        let field = field(random, world, pools, current);
        let twice = fields.iter().any(|f| f.name == field.name);
        if !twice && !fields.iter().any(|f| redundant(f, &field)) {
            fields.push(field);
        }
    }
    fields
}

/// A field without an id. Mostly it fits the schema, and often it has a name that the schema has not.
pub fn field(random: &mut Random, world: &World, pools: &Pools, schema: &Schema) -> PartitionField {
    let source = random.any_of(&schema.fields).filter(|_| random.percent(90));
    let (source_id, source_type) = match source {
        Some(source) => (source.id, source.field_type),
        None => (random.one_of(&world.field_ids), TIMESTAMP),
    };
    let mut free = pools.partition_names.clone();
    if random.percent(85) {
        free.retain(|name| schema.fields.iter().all(|f| f.name != *name));
    }
    let (transform, number) = pools.transform(random, source_type);
    PartitionField {
        source_id,
        field_id: Flagged::of(None),
        name: random.one_of(&free),
        transform,
        number,
    }
}

/// Each field gets an id: mostly that of an earlier field with its source and transform, else one of few.
fn with_ids(
    random: &mut Random,
    specs: &[Spec],
    fields: Vec<PartitionField>,
) -> Vec<PartitionField> {
    let mut with: Vec<PartitionField> = Vec::new();
    for mut field in fields {
        let taken: Vec<i32> = with.iter().map(|f| f.field_id.value).collect();
        let earlier = random
            .percent(75)
            .then(|| earlier_id(specs, &field))
            .flatten();
        let few = [1000, 1000, 1001, 1002, 1003, 1005, 1, 7, i32::MAX];
        let mut id = earlier.unwrap_or_else(|| random.one_of(&few));
        while taken.contains(&id) {
            id = 1000 + random.below(20) as i32;
        }
        field.field_id = Flagged::of(Some(id));
        with.push(field);
    }
    with
}

fn earlier_id(specs: &[Spec], field: &PartitionField) -> Option<i32> {
    let same = |f: &&PartitionField| {
        f.source_id == field.source_id && to::transform(f) == to::transform(field)
    };
    let found = specs.iter().flat_map(|s| &s.fields).find(same);
    found.map(|f| f.field_id.value)
}

/// Whether the schema bears the spec: no field clashes with it, none misfits.
pub fn bears(schema: &Schema, spec: &Spec) -> bool {
    let bound = to::spec(spec).into_unbound();
    bound.bind(Arc::new(to::schema(schema))).is_ok()
}

/// Mostly one that the current schema bears, so that a close passes 31 and 32.
fn default_spec(random: &mut Random, specs: &[Spec], schema: &Schema) -> i32 {
    let borne: Vec<&Spec> = specs.iter().filter(|s| bears(schema, s)).collect();
    match random.any_of(&borne).filter(|_| random.percent(95)) {
        Some(spec) => spec.id,
        None => random.one_of(specs).id,
    }
}

/// Mostly the highest id of a field, or one that every table starts from; at times below what is held, at times the largest.
fn last_partition_id(random: &mut Random, specs: &[Spec]) -> i32 {
    let ids = specs
        .iter()
        .flat_map(|s| &s.fields)
        .map(|f| f.field_id.value);
    let highest = ids.max().unwrap_or(0).max(LAST_PARTITION_ID);
    match random.percent(75) {
        true => highest,
        false => random.one_of(&[0, 998, 999, 1000, 1003, i32::MAX - 1, i32::MAX]),
    }
}
