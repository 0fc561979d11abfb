//! Specs that the current schema does not bear: offered, made the default (32), or met by the close (31, 32).

use super::Pools;
use super::clashing::fresh_field;
use super::provoke::new_spec;
use super::start::bears;
use crate::case::{
    BUCKET, DAY, Flagged, LONG, MONTH, Metadata, PartitionField, Schema, SchemaField, Spec, Update,
    YEAR, capacity,
};
use crate::generate::propose::{Now, current_schema, default_sort_fields};
use crate::generate::random::Random;

/// A source that the current schema does not have, or year, month or day of a long.
pub fn misfit(random: &mut Random, now: &Now, pools: &Pools) -> Spec {
    let m = &now.metadata;
    let mut spec = new_spec(random, now, pools);
    if let Some(again) = random.any_of(&m.specs).filter(|_| random.percent(20)) {
        return again;
    }
    spec.fields.truncate(capacity::SPEC_FIELDS - 1);
    let mut at_fault = fresh_field(random, now, pools, "misfit");
    let long = current_schema(m)
        .fields
        .iter()
        .find(|f| f.field_type == LONG);
    match long.filter(|_| random.percent(50)) {
        Some(long) => {
            at_fault.source_id = long.id;
            (at_fault.transform, at_fault.number) = (random.one_of(&[YEAR, MONTH, DAY]), 0);
        }
        None => at_fault.source_id = random.one_of(&[60, i32::MAX]),
    }
    let place = random.below(spec.fields.len() + 1);
    spec.fields.insert(place, at_fault);
    spec
}

/// A held spec that the current schema does not bear.
pub fn misfit_default(random: &mut Random, m: &Metadata) -> Option<Update> {
    let schema = current_schema(m);
    let unborne = m.specs.iter().filter(|s| !bears(schema, s));
    let ids: Vec<i32> = unborne.map(|s| s.id).collect();
    Some(Update::SetDefaultPartitionSpec(random.any_of(&ids)?))
}

/// Updates after which the close may be refused with 31 or 32: another schema or another default, held or added.
pub fn closing(random: &mut Random, now: &Now, number: u8) -> Option<Vec<Update>> {
    let m = &now.metadata;
    match random.below(3) {
        0 => another_schema(random, m),
        1 if number == 31 => name_to_come(random, m),
        1 => another_default(random, m),
        _ => changed_schema(random, m),
    }
}

/// A held spec that the current schema bears, made the default, and a held schema that does not bear it.
fn another_default(random: &mut Random, m: &Metadata) -> Option<Vec<Update>> {
    let borne = |spec: &&Spec| bears(current_schema(m), spec);
    let specs: Vec<&Spec> = m.specs.iter().filter(borne).collect();
    let spec = random.any_of(&specs)?;
    let unbearing = m.schemas.iter().filter(|schema| !bears(schema, spec));
    let ids: Vec<i32> = unbearing.map(|s| s.id).collect();
    Some(vec![
        Update::SetDefaultPartitionSpec(spec.id),
        Update::SetCurrentSchema(random.any_of(&ids)?),
    ])
}

/// A held schema that does not bear the default spec, made the current one.
fn another_schema(random: &mut Random, m: &Metadata) -> Option<Vec<Update>> {
    let default = m.specs.iter().find(|s| s.id == m.default_spec_id)?;
    let unbearing = m.schemas.iter().filter(|schema| !bears(schema, default));
    let ids: Vec<i32> = unbearing.map(|s| s.id).collect();
    Some(vec![Update::SetCurrentSchema(random.any_of(&ids)?)])
}

/// A spec with a name that another held schema has, made the default; then that schema is made the current one.
fn name_to_come(random: &mut Random, m: &Metadata) -> Option<Vec<Update>> {
    let current = current_schema(m);
    let free = |f: &SchemaField| {
        !f.name.is_empty() && current.fields.iter().all(|held| held.name != f.name)
    };
    let then = random.one_of(&m.schemas);
    let named: Vec<&SchemaField> = then.fields.iter().filter(|f| free(f)).collect();
    let field = PartitionField {
        source_id: random.any_of(&current.fields)?.id,
        field_id: Flagged::of(None),
        name: random.any_of(&named)?.name.clone(),
        transform: BUCKET,
        number: 16,
    };
    let spec = Spec {
        id: 0,
        fields: vec![field],
    };
    Some(vec![
        Update::AddPartitionSpec(spec),
        Update::SetDefaultPartitionSpec(-1),
        Update::SetCurrentSchema(then.id),
    ])
}

/// The current schema without a source of the default spec, or with a long in its place; at times without what the default order sorts by.
fn changed_schema(random: &mut Random, m: &Metadata) -> Option<Vec<Update>> {
    let default = m.specs.iter().find(|s| s.id == m.default_spec_id)?;
    let source_id = random.any_of(&default.fields)?.source_id;
    let mut fields = current_schema(m).fields.clone();
    match random.percent(50) {
        true => fields.retain(|f| f.id != source_id),
        false => fields
            .iter_mut()
            .filter(|f| f.id == source_id)
            .for_each(|f| f.field_type = LONG),
    }
    if random.percent(40) {
        let sorted_by = default_sort_fields(m);
        fields.retain(|f| sorted_by.iter().all(|by| by.source_id != f.id));
    }
    let schema = Schema { id: 0, fields };
    Some(vec![
        Update::AddNamedSchema(schema),
        Update::SetCurrentSchema(-1),
    ])
}
