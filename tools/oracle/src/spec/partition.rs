//! Stand-ins for partition specs. What they answer is our reading of document 02, request (ix): the published text of these types is not
//! among the two files.

use super::{PartitionSpecBuilder, Schema, SchemaRef, Transform};
use crate::error::Result;

pub const DEFAULT_PARTITION_SPEC_ID: i32 = 0;
pub const UNPARTITIONED_LAST_ASSIGNED_ID: i32 = 999;

/// The first of the sequential field ids that version 1 demands.
const FIRST_SEQUENTIAL_ID: i32 = 1000;

/// The type of a partition. Nothing looks at it, so it says nothing.
#[derive(Debug, Clone, PartialEq)]
pub struct StructType;

impl StructType {
    pub fn new(_fields: Vec<()>) -> Self {
        Self
    }
}

#[derive(Debug, Clone, PartialEq)]
pub struct PartitionField {
    pub source_id: i32,
    pub field_id: i32,
    pub name: String,
    pub transform: Transform,
}

#[derive(Debug, Clone, PartialEq)]
pub struct UnboundPartitionField {
    pub source_id: i32,
    pub field_id: Option<i32>,
    pub name: String,
    pub transform: Transform,
}

#[derive(Debug, Clone, PartialEq)]
pub struct PartitionSpec {
    spec_id: i32,
    fields: Vec<PartitionField>,
}

impl PartitionSpec {
    pub fn of_fields(spec_id: i32, fields: Vec<PartitionField>) -> Self {
        Self { spec_id, fields }
    }

    pub fn unpartition_spec() -> Self {
        Self::of_fields(DEFAULT_PARTITION_SPEC_ID, Vec::new())
    }

    pub fn with_spec_id(self, spec_id: i32) -> Self {
        Self { spec_id, ..self }
    }

    pub fn spec_id(&self) -> i32 {
        self.spec_id
    }

    pub fn fields(&self) -> &[PartitionField] {
        &self.fields
    }

    pub fn into_unbound(self) -> UnboundPartitionSpec {
        let field = |f: PartitionField| UnboundPartitionField {
            source_id: f.source_id,
            field_id: Some(f.field_id),
            name: f.name,
            transform: f.transform,
        };
        UnboundPartitionSpec {
            spec_id: Some(self.spec_id),
            fields: self.fields.into_iter().map(field).collect(),
        }
    }

    /// Refused if a field's source is not in the schema or is of the wrong type.
    pub fn partition_type(&self, schema: &Schema) -> Result<StructType> {
        for field in &self.fields {
            PartitionSpecBuilder::check_source(field.source_id, field.transform, schema)?;
        }
        Ok(StructType)
    }

    /// Equal sources, transforms and names in the same order. Ids, of the specs and of their fields, are not compared.
    pub fn is_compatible_with(&self, other: &PartitionSpec) -> bool {
        let same = |(a, b): (&PartitionField, &PartitionField)| {
            a.source_id == b.source_id && a.transform == b.transform && a.name == b.name
        };
        self.fields.len() == other.fields.len() && self.fields.iter().zip(&other.fields).all(same)
    }

    /// 1000, 1001, .. in order.
    pub fn has_sequential_ids(&self) -> bool {
        let ids = self.fields.iter().map(|f| f.field_id);
        ids.eq((FIRST_SEQUENTIAL_ID..).take(self.fields.len()))
    }

    pub fn highest_field_id(&self) -> Option<i32> {
        self.fields.iter().map(|f| f.field_id).max()
    }
}

#[derive(Debug, Clone, PartialEq)]
pub struct UnboundPartitionSpec {
    pub spec_id: Option<i32>,
    pub fields: Vec<UnboundPartitionField>,
}

impl UnboundPartitionSpec {
    pub fn bind(self, schema: SchemaRef) -> Result<PartitionSpec> {
        PartitionSpecBuilder::new_from_unbound(self, schema)?.build()
    }

    pub fn fields(&self) -> &[UnboundPartitionField] {
        &self.fields
    }

    pub fn with_spec_id(self, spec_id: i32) -> Self {
        let spec_id = Some(spec_id);
        Self { spec_id, ..self }
    }
}
