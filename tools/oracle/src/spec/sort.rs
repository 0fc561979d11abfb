//! Stand-in for sort orders: fields of the identity transform, checked against a schema by their source ids alone.

use std::sync::Arc;

use super::Schema;
use crate::error::{Error, ErrorKind, Result};

pub type SortOrderRef = Arc<SortOrder>;

#[derive(Debug, Clone, PartialEq)]
pub struct SortField {
    pub source_id: i32,
    pub direction: u8,
    pub nulls: u8,
}

#[derive(Debug, Clone, PartialEq)]
pub struct SortOrder {
    pub order_id: i64,
    pub fields: Vec<SortField>,
}

impl SortOrder {
    /// What `build` says of a field that the schema does not have; `published::number` knows it again.
    pub const UNKNOWN_SOURCE: &str = "no such source field in the schema";

    pub fn builder() -> SortOrderBuilder {
        SortOrderBuilder {
            order: Self::unsorted_order(),
        }
    }

    pub fn unsorted_order() -> Self {
        Self {
            order_id: 0,
            fields: Vec::new(),
        }
    }

    pub fn is_unsorted(&self) -> bool {
        self.fields.is_empty()
    }

    pub fn with_order_id(self, order_id: i64) -> Self {
        Self { order_id, ..self }
    }
}

pub struct SortOrderBuilder {
    order: SortOrder,
}

impl SortOrderBuilder {
    pub fn with_order_id(&mut self, order_id: i64) -> &mut Self {
        self.order.order_id = order_id;
        self
    }

    pub fn with_fields(&mut self, fields: Vec<SortField>) -> &mut Self {
        self.order.fields = fields;
        self
    }

    pub fn with_sort_field(&mut self, field: SortField) -> &mut Self {
        self.order.fields.push(field);
        self
    }

    /// An identity field fits either type, so a source id is refused only if the schema has no such field.
    pub fn build(&mut self, schema: &Schema) -> Result<SortOrder> {
        let order = self.order.clone();
        match order
            .fields
            .iter()
            .all(|f| schema.field_by_id(f.source_id).is_some())
        {
            true => Ok(order),
            false => Err(Error::new(
                ErrorKind::DataInvalid,
                SortOrder::UNKNOWN_SOURCE,
            )),
        }
    }
}
