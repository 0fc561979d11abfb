//! Stand-in for binding a partition spec to a schema, by document 02's request (ix): the fields' names, ids, transforms and sources are
//! checked, then those without an id get a fresh one. Where several checks fail the first is told: a name that the schema has, a name
//! twice, a redundant field, an id twice, a source that is missing or of the wrong type.

use std::collections::HashSet;
use std::hash::Hash;
use std::sync::Arc;

use super::{
    DEFAULT_PARTITION_SPEC_ID, PartitionField, PartitionSpec, Schema, SchemaRef, Transform,
    UNPARTITIONED_LAST_ASSIGNED_ID, UnboundPartitionField, UnboundPartitionSpec, not_taken,
};
use crate::error::{Error, ErrorKind, Result};

#[derive(Debug)]
pub struct PartitionSpecBuilder {
    spec: UnboundPartitionSpec,
    last_assigned_field_id: i32,
}

/// What the checks say; `published::number` knows these texts again.
impl PartitionSpecBuilder {
    pub const NAME_IN_SCHEMA: &str = "a partition name is that of a field of the schema";
    pub const NAME_TWICE: &str = "two partition fields have one name";
    pub const REDUNDANT: &str = "a partition field is redundant";
    pub const ID_TWICE: &str = "two partition fields have one id";
    pub const NO_SOURCE: &str = "no such source of a partition field in the schema";
    pub const WRONG_TYPE: &str = "a partition field's source is of the wrong type";
    pub const NO_ID_LEFT: &str = "no fresh id is left for a partition field";
}

impl PartitionSpecBuilder {
    pub fn new(_schema: impl Into<Arc<Schema>>) -> Self {
        not_taken("table creation")
    }

    pub fn add_partition_field(
        self,
        _source_name: &str,
        _name: &str,
        _transform: Transform,
    ) -> Result<Self> {
        not_taken("table creation")
    }

    pub fn new_from_unbound(spec: UnboundPartitionSpec, schema: SchemaRef) -> Result<Self> {
        check_names_and_ids(spec.fields(), &schema)?;
        for field in spec.fields() {
            Self::check_source(field.source_id, field.transform, &schema)?;
        }
        Ok(Self {
            spec,
            last_assigned_field_id: UNPARTITIONED_LAST_ASSIGNED_ID,
        })
    }

    pub fn with_last_assigned_field_id(self, last_assigned_field_id: i32) -> Self {
        Self {
            last_assigned_field_id,
            ..self
        }
    }

    pub fn build(self) -> Result<PartitionSpec> {
        let spec_id = self.spec.spec_id.unwrap_or(DEFAULT_PARTITION_SPEC_ID);
        let fields = with_ids(self.spec.fields, self.last_assigned_field_id)?;
        Ok(PartitionSpec::of_fields(spec_id, fields))
    }

    /// That the schema has the source, and the source a type that the transform takes.
    pub fn check_source(source_id: i32, transform: Transform, schema: &Schema) -> Result<()> {
        match schema.field_by_id(source_id) {
            None => refuse(Self::NO_SOURCE),
            Some(source) if !transform.takes(source.field_type) => refuse(Self::WRONG_TYPE),
            Some(_) => Ok(()),
        }
    }
}

fn refuse(text: &str) -> Result<()> {
    Err(Error::new(ErrorKind::DataInvalid, text))
}

fn check_names_and_ids(fields: &[UnboundPartitionField], schema: &Schema) -> Result<()> {
    let ids = fields.iter().filter_map(|f| f.field_id);
    if fields.iter().any(|f| clashes(f, schema)) {
        refuse(PartitionSpecBuilder::NAME_IN_SCHEMA)
    } else if !unequal(fields.iter().map(|f| &f.name)) {
        refuse(PartitionSpecBuilder::NAME_TWICE)
    } else if has_redundant(fields) {
        refuse(PartitionSpecBuilder::REDUNDANT)
    } else if !unequal(ids) {
        refuse(PartitionSpecBuilder::ID_TWICE)
    } else {
        Ok(())
    }
}

/// A field of the schema has its name, unless it is that very field, untransformed.
fn clashes(field: &UnboundPartitionField, schema: &Schema) -> bool {
    let itself = |id: i32| field.transform == Transform::Identity && field.source_id == id;
    let named = schema.field_by_name(&field.name);
    named.is_some_and(|named| !itself(named.id))
}

fn has_redundant(fields: &[UnboundPartitionField]) -> bool {
    let redundant = |a: &UnboundPartitionField, b: &UnboundPartitionField| {
        a.source_id == b.source_id && a.transform.is_redundant_with(b.transform)
    };
    (1..fields.len()).any(|i| {
        fields[..i]
            .iter()
            .any(|before| redundant(before, &fields[i]))
    })
}

fn unequal<T: Eq + Hash>(all: impl Iterator<Item = T>) -> bool {
    let mut seen = HashSet::new();
    let mut all = all;
    all.all(|one| seen.insert(one))
}

/// Goes through the fields with a number that starts at the last id: a field's id raises it, a field without one gets the next number
/// that no field of the spec has.
fn with_ids(fields: Vec<UnboundPartitionField>, mut last: i32) -> Result<Vec<PartitionField>> {
    let taken: HashSet<i32> = fields.iter().filter_map(|f| f.field_id).collect();
    let mut bound = Vec::with_capacity(fields.len());
    for field in fields {
        let fresh = || (last..=i32::MAX).skip(1).find(|id| !taken.contains(id));
        let field_id = match field.field_id.or_else(fresh) {
            Some(id) => id,
            None => return Err(no_id_left()),
        };
        last = last.max(field_id);
        bound.push(PartitionField {
            source_id: field.source_id,
            field_id,
            name: field.name,
            transform: field.transform,
        });
    }
    Ok(bound)
}

fn no_id_left() -> Error {
    let text = PartitionSpecBuilder::NO_ID_LEFT;
    Error::new(ErrorKind::DataInvalid, text)
}
