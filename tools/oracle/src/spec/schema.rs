//! Stand-in for schemas: a flat list of optional fields, each with a name and a type.

use std::collections::HashMap;
use std::sync::Arc;

use super::not_taken;
use crate::error::Result;

pub const DEFAULT_SCHEMA_ID: i32 = 0;

pub type SchemaRef = Arc<Schema>;

/// Document 02 has these two.
#[derive(Debug, Clone, Copy, PartialEq, Eq)]
pub enum PrimitiveType {
    Long,
    Timestamp,
}

#[derive(Debug, Clone, PartialEq)]
pub struct NestedField {
    pub id: i32,
    pub name: String,
    pub field_type: PrimitiveType,
}

#[derive(Debug, Clone, PartialEq)]
pub struct Schema {
    schema_id: i32,
    fields: Arc<Fields>,
}

/// The fields in order, and the maps by which they are found.
#[derive(Debug, PartialEq)]
struct Fields {
    list: Vec<NestedField>,
    id_to_name: HashMap<i32, String>,
    id_to_place: HashMap<i32, usize>,
    name_to_place: HashMap<String, usize>,
}

impl Schema {
    pub fn of_fields(schema_id: i32, list: Vec<NestedField>) -> Self {
        let by_name = |(place, f): (usize, &NestedField)| (f.name.clone(), place);
        let by_id = |(place, f): (usize, &NestedField)| (f.id, place);
        let fields = Arc::new(Fields {
            id_to_name: list.iter().map(|f| (f.id, f.name.clone())).collect(),
            id_to_place: list.iter().enumerate().map(by_id).collect(),
            name_to_place: list.iter().enumerate().map(by_name).collect(),
            list,
        });
        Self { schema_id, fields }
    }

    pub fn fields(&self) -> &[NestedField] {
        &self.fields.list
    }

    pub fn schema_id(&self) -> i32 {
        self.schema_id
    }

    pub fn with_schema_id(self, schema_id: i32) -> Self {
        Self { schema_id, ..self }
    }

    pub fn field_id_to_name_map(&self) -> &HashMap<i32, String> {
        &self.fields.id_to_name
    }

    /// The same fields in the same order: ids, names and types.
    pub fn is_same_schema(&self, other: &Schema) -> bool {
        self.fields.list == other.fields.list
    }

    /// No fields count as 0.
    pub fn highest_field_id(&self) -> i32 {
        self.fields.list.iter().map(|f| f.id).max().unwrap_or(0)
    }

    pub fn field_by_name(&self, name: &str) -> Option<&NestedField> {
        let place = self.fields.name_to_place.get(name)?;
        self.fields.list.get(*place)
    }

    pub fn field_by_id(&self, id: i32) -> Option<&NestedField> {
        let place = self.fields.id_to_place.get(&id)?;
        self.fields.list.get(*place)
    }

    pub fn into_builder(self) -> SchemaBuilder {
        not_taken("table creation")
    }
}

pub struct SchemaBuilder;

impl SchemaBuilder {
    pub fn with_schema_id(self, _schema_id: i32) -> Self {
        self
    }

    pub fn with_reassigned_field_ids(self, _first: i32) -> Self {
        self
    }

    pub fn build(self) -> Result<Schema> {
        not_taken("table creation")
    }
}
