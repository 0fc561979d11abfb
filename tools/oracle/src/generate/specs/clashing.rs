//! Offers of specs and schemas that are refused with 31, each cause by itself and at times two at once.

use super::Pools;
use super::pools::number;
use super::provoke::new_spec;
use super::start::field;
use crate::case::{
    BUCKET, Bytes, DAY, Flagged, IDENTITY, LONG, MONTH, Metadata, PartitionField, SchemaField,
    Spec, TIMESTAMP, Update, YEAR, capacity,
};
use crate::generate::propose::{Now, current_schema};
use crate::generate::random::Random;
use crate::port::redundant;

/// A held schema with one more field, whose name a held partition field has and no held schema.
pub fn taken_name(random: &mut Random, now: &Now) -> Option<Update> {
    let m = &now.metadata;
    let in_schema = |name: &Bytes| {
        let mut fields = m.schemas.iter().flat_map(|s| &s.fields);
        fields.any(|f| f.name == *name)
    };
    let mut names: Vec<Bytes> = partition_fields(m).into_iter().map(|f| f.name).collect();
    names.retain(|name| !in_schema(name));
    let mut schema = random.one_of(&m.schemas);
    schema.fields.truncate(capacity::SCHEMA_FIELDS - 1);
    let new = SchemaField {
        id: 50 + random.below(3) as i32,
        name: random.any_of(&names)?,
        field_type: random.one_of(&[LONG, TIMESTAMP]),
    };
    let place = random.below(schema.fields.len() + 1);
    schema.fields.insert(place, new);
    Some(Update::AddNamedSchema(schema))
}

fn partition_fields(m: &Metadata) -> Vec<PartitionField> {
    m.specs.iter().flat_map(|s| s.fields.clone()).collect()
}

/// An offer at fault in one way, at times in two.
pub fn clashing(random: &mut Random, now: &Now, pools: &Pools) -> Option<Spec> {
    let mut spec = new_spec(random, now, pools);
    for _ in 0..random.one_of(&[1, 1, 1, 2]) {
        spec.fields.truncate(capacity::SPEC_FIELDS - 2);
        let more = match random.below(8) {
            0 => name_of_schema(random, now, pools, false)?,
            1 => name_of_schema(random, now, pools, true)?,
            2 => name_twice(random, now, pools),
            3 => redundant_pair(random, now, pools, false),
            4 => redundant_pair(random, now, pools, true),
            5 => id_twice(random, now, pools),
            6 => given_and_reused(random, now, pools)?,
            _ => reused_twice(random, &now.metadata)?,
        };
        // What stands before is not to be at fault by itself.
        let apart = |f: &PartitionField| more.iter().all(|m| m.name != f.name && !redundant(m, f));
        spec.fields.retain(apart);
        spec.fields.extend(more);
    }
    Some(spec)
}

pub fn fresh_field(random: &mut Random, now: &Now, pools: &Pools, name: &str) -> PartitionField {
    PartitionField {
        name: name.into(),
        ..field(random, now.world, pools, current_schema(&now.metadata))
    }
}

/// A name that the current schema has: of another field's identity, or transformed.
fn name_of_schema(
    random: &mut Random,
    now: &Now,
    pools: &Pools,
    identity: bool,
) -> Option<Vec<PartitionField>> {
    let mut named = current_schema(&now.metadata).fields.clone();
    named.retain(|f| !f.name.is_empty());
    let name = random.any_of(&named)?.name;
    let mut field = fresh_field(random, now, pools, "");
    field.name = name;
    field.transform = match identity {
        true => IDENTITY,
        false => random.one_of(&[BUCKET, BUCKET, YEAR, DAY]),
    };
    field.number = number(random, field.transform);
    Some(vec![field])
}

fn name_twice(random: &mut Random, now: &Now, pools: &Pools) -> Vec<PartitionField> {
    let mut both = [4, 8].map(|number| PartitionField {
        transform: BUCKET,
        number,
        ..fresh_field(random, now, pools, "twice")
    });
    if random.percent(50) {
        both[1] = fresh_field(random, now, pools, "twice");
    }
    both.to_vec()
}

/// Two fields of one source: equal transforms, or two of year, month and day.
fn redundant_pair(
    random: &mut Random,
    now: &Now,
    pools: &Pools,
    times: bool,
) -> Vec<PartitionField> {
    let mut first = fresh_field(random, now, pools, "one");
    if times {
        let schema = current_schema(&now.metadata);
        let source = schema.fields.iter().find(|f| f.field_type == TIMESTAMP);
        first.source_id = source.map_or(first.source_id, |source| source.id);
        (first.transform, first.number) = (random.one_of(&[YEAR, MONTH, DAY]), 0);
    }
    let mut second = PartitionField {
        name: b"two".to_vec(),
        ..first.clone()
    };
    if times {
        second.transform = random.one_of(&[YEAR, MONTH, DAY]);
    }
    // Equal ones would reuse one id too.
    second.field_id = Flagged::of(random.percent(70).then_some(7000));
    vec![first, second]
}

fn id_twice(random: &mut Random, now: &Now, pools: &Pools) -> Vec<PartitionField> {
    let id = Flagged::of(Some(random.one_of(&[1000, 1001, 5000, 1, i32::MAX])));
    let both = [4, 8].map(|number| PartitionField {
        field_id: id,
        transform: BUCKET,
        number,
        ..fresh_field(random, now, pools, &format!("id{number}"))
    });
    both.to_vec()
}

/// A field that reuses the id of a held one, and another that is given it.
fn given_and_reused(random: &mut Random, now: &Now, pools: &Pools) -> Option<Vec<PartitionField>> {
    let held = random.any_of(&partition_fields(&now.metadata))?;
    let given = PartitionField {
        field_id: held.field_id,
        ..fresh_field(random, now, pools, "given")
    };
    Some(vec![given, without_id(held, "reused")])
}

/// Two fields that reuse one id, which two held fields of unequal pairs have.
fn reused_twice(random: &mut Random, m: &Metadata) -> Option<Vec<PartitionField>> {
    let held = partition_fields(m);
    let one = random.any_of(&held)?;
    let same_id = |f: &&PartitionField| f.field_id == one.field_id && !redundant(f, &one);
    let other = held.iter().find(same_id)?.clone();
    Some(vec![without_id(one, "one"), without_id(other, "two")])
}

fn without_id(held: PartitionField, name: &str) -> PartitionField {
    PartitionField {
        field_id: Flagged::of(None),
        name: name.into(),
        ..held
    }
}
