//! Schemas: flat lists of fields, each with a name and a type.

use super::Bytes;

pub const LONG: u8 = 1;
pub const TIMESTAMP: u8 = 2;

#[derive(Debug, Clone, PartialEq)]
pub struct SchemaField {
    pub id: i32,
    pub name: Bytes,
    pub field_type: u8,
}

impl SchemaField {
    /// What a field is that is written without a name: a long, named by its id in decimal digits.
    pub fn unnamed(id: i32) -> Self {
        Self {
            id,
            name: id.to_string().into_bytes(),
            field_type: LONG,
        }
    }
}

#[derive(Debug, Clone, PartialEq)]
pub struct Schema {
    pub id: i32,
    pub fields: Vec<SchemaField>,
}

impl Schema {
    /// A schema that is written without names.
    pub fn unnamed(id: i32, field_ids: impl IntoIterator<Item = i32>) -> Self {
        let fields = field_ids.into_iter().map(SchemaField::unnamed).collect();
        Self { id, fields }
    }

    pub fn field_ids(&self) -> Vec<i32> {
        self.fields.iter().map(|f| f.id).collect()
    }

    /// Whether it can be written without names.
    pub fn is_unnamed(&self) -> bool {
        let unnamed = |f: &SchemaField| *f == SchemaField::unnamed(f.id);
        self.fields.iter().all(unnamed)
    }
}
