//! Why fields of an offered spec, or of the default at the close, are refused with 31 or 32.

use crate::case::{PartitionField, Spec};
use crate::port;
use crate::published::to_published as to;
use crate::spec::{Schema, TableMetadata, Transform};

/// Why a partition field is refused with 31 or 32.
#[derive(Debug, Clone, Copy, PartialEq, Eq, PartialOrd, Ord)]
pub enum Cause {
    Transformed,
    OfAnother,
    NameTwice,
    RedundantEqual,
    RedundantTimes,
    GivenTwice,
    GivenAndReused,
    ReusedTwice,
    NoSource,
    WrongType,
}

/// Where a field of an offer has its id from.
#[derive(Debug, Clone, Copy, PartialEq, Eq, PartialOrd, Ord)]
pub enum Origin {
    Given,
    Reused,
    /// Of several that match.
    Picked,
    Fresh,
}

/// An offered field with what there is of its id before binding.
pub struct Offered<'a> {
    pub field: &'a PartitionField,
    pub origin: Origin,
    pub id: Option<i32>,
}

pub fn offered<'a>(m: &TableMetadata, spec: &'a Spec) -> Vec<Offered<'a>> {
    let one = |field: &'a PartitionField| {
        let ids = port::matching_ids(m, field);
        let (origin, id) = match (field.field_id.get(), ids.len()) {
            (Some(id), _) => (Origin::Given, Some(id)),
            (None, 0) => (Origin::Fresh, None),
            (None, 1) => (Origin::Reused, Some(ids[0])),
            (None, _) => (Origin::Picked, Some(ids[0])),
        };
        Offered { field, origin, id }
    };
    spec.fields.iter().map(one).collect()
}

pub fn current(m: &TableMetadata) -> &Schema {
    &m.schemas[&m.current_schema_id]
}

/// The name clashes with the schema.
pub fn clash(name: &str, source_id: i32, transform: Transform, schema: &Schema) -> Option<Cause> {
    let named = schema.field_by_name(name)?;
    match (transform == Transform::Identity, named.id == source_id) {
        (false, _) => Some(Cause::Transformed),
        (true, false) => Some(Cause::OfAnother),
        (true, true) => None,
    }
}

pub fn misfit(source_id: i32, transform: Transform, schema: &Schema) -> Option<Cause> {
    match schema.field_by_id(source_id) {
        None => Some(Cause::NoSource),
        Some(source) if !transform.takes(source.field_type) => Some(Cause::WrongType),
        Some(_) => None,
    }
}

fn clash_of(field: &PartitionField, schema: &Schema) -> Option<Cause> {
    let name = to::text(&field.name);
    clash(&name, field.source_id, to::transform(field), schema)
}

pub fn misfit_of(field: &PartitionField, schema: &Schema) -> Option<Cause> {
    misfit(field.source_id, to::transform(field), schema)
}

/// What two fields of one offer have in common that they may not.
fn twice(a: &Offered, b: &Offered) -> Vec<Cause> {
    let [one, other] = [a, b].map(|offered| to::transform(offered.field));
    let one_source = a.field.source_id == b.field.source_id;
    let redundant = one_source && one.is_redundant_with(other);
    let one_id = a.id.is_some() && a.id == b.id;
    let by_id = match (a.origin == Origin::Given, b.origin == Origin::Given) {
        (true, true) => Cause::GivenTwice,
        (false, false) => Cause::ReusedTwice,
        _ => Cause::GivenAndReused,
    };
    [
        (a.field.name == b.field.name, Cause::NameTwice),
        (redundant && one == other, Cause::RedundantEqual),
        (redundant && one != other, Cause::RedundantTimes),
        (one_id, by_id),
    ]
    .into_iter()
    .filter_map(|(is_so, cause)| is_so.then_some(cause))
    .collect()
}

/// All causes of 31 in adding it, each once.
pub fn causes(m: &TableMetadata, spec: &Spec) -> Vec<Cause> {
    let all = offered(m, spec);
    let clashes = spec.fields.iter().filter_map(|f| clash_of(f, current(m)));
    let pairs = (0..all.len()).flat_map(|j| (0..j).map(move |i| (i, j)));
    let mut causes: Vec<Cause> = pairs.flat_map(|(i, j)| twice(&all[i], &all[j])).collect();
    causes.extend(clashes);
    causes.sort_unstable();
    causes.dedup();
    causes
}
