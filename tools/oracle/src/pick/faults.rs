//! In what a spec or a schema is at fault, offered (3) or held by a start (1).

use crate::case::{
    BUCKET, IDENTITY, LONG, Metadata, PartitionField, Schema, SchemaField, Spec, TIMESTAMP, Update,
    capacity,
};
use crate::port::redundant;

#[derive(Debug, Clone, Copy, PartialEq, Eq, PartialOrd, Ord)]
pub enum Fault {
    Id,
    TooManyFields,
    FieldId,
    SameIds,
    SameNames,
    NoName,
    LongName,
    Type,
    Source,
    HiddenId,
    Transform,
    Bucket,
    /// A number with another transform.
    Number,
    /// Of a held spec: a field has no id.
    IdLeftOut,
    Redundant,
    /// Of the table: it has none, too many, or they do not ascend.
    NoSpecs,
    TooMany,
    OutOfOrder,
    DefaultNotHeld,
    LastPartitionId,
}

type Checks = Vec<(bool, Fault)>;

fn found(checks: Checks) -> Vec<Fault> {
    let faults = checks.into_iter().filter(|(is_so, _)| *is_so);
    faults.map(|(_, fault)| fault).collect()
}

/// The faults of an offered spec or named schema.
pub fn of_update(update: &Update) -> Vec<Fault> {
    match update {
        Update::AddPartitionSpec(spec) => found(of_spec(spec)),
        Update::AddNamedSchema(schema) => found(of_schema(schema)),
        _ => Vec::new(),
    }
}

/// The faults of a start's schemas.
pub fn of_schemas(m: &Metadata) -> Vec<Fault> {
    let mut checks: Checks = m.schemas.iter().flat_map(of_schema).collect();
    checks.push((m.schemas.len() > capacity::SCHEMAS, Fault::TooMany));
    checks.push((
        !m.schemas.is_sorted_by(|a, b| a.id < b.id),
        Fault::OutOfOrder,
    ));
    found(checks)
}

/// The faults of a start's specs.
pub fn of_specs(m: &Metadata) -> Vec<Fault> {
    let mut checks: Checks = m.specs.iter().flat_map(of_held_spec).collect();
    let default = m.specs.iter().any(|s| s.id == m.default_spec_id);
    checks.extend([
        (m.specs.is_empty(), Fault::NoSpecs),
        (m.specs.len() > capacity::SPECS, Fault::TooMany),
        (!m.specs.is_sorted_by(|a, b| a.id < b.id), Fault::OutOfOrder),
        (!default, Fault::DefaultNotHeld),
        (m.last_partition_id < 0, Fault::LastPartitionId),
    ]);
    found(checks)
}

fn of_schema(s: &Schema) -> Checks {
    let any = |at_fault: fn(&SchemaField) -> bool| s.fields.iter().any(at_fault);
    vec![
        (s.id < 0, Fault::Id),
        (
            s.fields.len() > capacity::SCHEMA_FIELDS,
            Fault::TooManyFields,
        ),
        (any(|f| f.id < 1), Fault::FieldId),
        (twice(&s.fields, |a, b| a.id == b.id), Fault::SameIds),
        (twice(&s.fields, |a, b| a.name == b.name), Fault::SameNames),
        (
            any(|f| f.name.len() > capacity::FIELD_NAME),
            Fault::LongName,
        ),
        (
            any(|f| !(LONG..=TIMESTAMP).contains(&f.field_type)),
            Fault::Type,
        ),
    ]
}

fn of_spec(s: &Spec) -> Checks {
    let any = |at_fault: fn(&PartitionField) -> bool| s.fields.iter().any(at_fault);
    vec![
        (s.id < 0, Fault::Id),
        (s.fields.len() > capacity::SPEC_FIELDS, Fault::TooManyFields),
        (any(|f| f.source_id < 1), Fault::Source),
        (
            any(|f| f.field_id.present && f.field_id.value < 1),
            Fault::FieldId,
        ),
        (
            any(|f| !f.field_id.present && f.field_id.value != 0),
            Fault::HiddenId,
        ),
        (any(|f| f.name.is_empty()), Fault::NoName),
        (
            any(|f| f.name.len() > capacity::FIELD_NAME),
            Fault::LongName,
        ),
        (
            any(|f| !(IDENTITY..=BUCKET).contains(&f.transform)),
            Fault::Transform,
        ),
        (
            any(|f| f.transform == BUCKET && f.number < 1),
            Fault::Bucket,
        ),
        (
            any(|f| f.transform != BUCKET && f.number != 0),
            Fault::Number,
        ),
    ]
}

fn of_held_spec(s: &Spec) -> Checks {
    let mut checks = of_spec(s);
    checks.extend([
        (
            s.fields.iter().any(|f| !f.field_id.present),
            Fault::IdLeftOut,
        ),
        (
            twice(&s.fields, |a, b| a.field_id == b.field_id),
            Fault::SameIds,
        ),
        (twice(&s.fields, |a, b| a.name == b.name), Fault::SameNames),
        (twice(&s.fields, redundant), Fault::Redundant),
    ]);
    checks
}

/// Whether two of them are the same so.
fn twice<T>(all: &[T], same: impl Fn(&T, &T) -> bool) -> bool {
    (1..all.len()).any(|i| all[..i].iter().any(|before| same(before, &all[i])))
}
