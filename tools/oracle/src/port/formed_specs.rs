//! Well-formed schemas and partition specs, by document 02's request (ix).

use super::formed::blank;
use crate::case::{
    BUCKET, IDENTITY, LONG, PartitionField, Schema, SchemaField, Spec, TIMESTAMP, capacity,
};
use crate::published::to_published as to;

/// Ids are unequal within a schema, and so are names.
pub fn schema(s: &Schema) -> bool {
    s.id >= 0
        && s.fields.len() <= capacity::SCHEMA_FIELDS
        && s.fields.iter().all(schema_field)
        && unequal(s.fields.iter().map(|f| f.id))
        && unequal(s.fields.iter().map(|f| &f.name))
}

/// A name may be empty.
fn schema_field(f: &SchemaField) -> bool {
    f.id >= 1 && f.name.len() <= capacity::FIELD_NAME && (LONG..=TIMESTAMP).contains(&f.field_type)
}

/// An offered spec may have names and ids twice and redundant fields: that is 31.
pub fn spec(s: &Spec) -> bool {
    s.id >= 0 && s.fields.len() <= capacity::SPEC_FIELDS && s.fields.iter().all(partition_field)
}

/// A name is not empty. A field may leave its id out.
fn partition_field(f: &PartitionField) -> bool {
    f.source_id >= 1
        && blank(&f.field_id)
        && f.field_id.get().is_none_or(|id| id >= 1)
        && (1..=capacity::FIELD_NAME).contains(&f.name.len())
        && (IDENTITY..=BUCKET).contains(&f.transform)
        && match f.transform {
            BUCKET => f.number >= 1,
            _ => f.number == 0,
        }
}

/// A held spec has ids, unequal ones, unequal names and no redundant field.
pub fn held_spec(s: &Spec) -> bool {
    spec(s)
        && s.fields.iter().all(|f| f.field_id.present)
        && unequal(s.fields.iter().map(|f| f.field_id.value))
        && unequal(s.fields.iter().map(|f| &f.name))
        && !has_redundant(&s.fields)
}

/// Two fields of one source whose transforms are equal, or both of year, month and day.
pub fn redundant(a: &PartitionField, b: &PartitionField) -> bool {
    a.source_id == b.source_id && to::transform(a).is_redundant_with(to::transform(b))
}

fn has_redundant(fields: &[PartitionField]) -> bool {
    (1..fields.len()).any(|i| {
        fields[..i]
            .iter()
            .any(|before| redundant(before, &fields[i]))
    })
}

fn unequal<T: Ord>(all: impl Iterator<Item = T>) -> bool {
    let mut all: Vec<T> = all.collect();
    all.sort_unstable();
    all.is_sorted_by(|a, b| a < b)
}
