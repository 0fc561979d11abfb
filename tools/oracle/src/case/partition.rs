//! Partition specs, held and offered alike.

use super::{Bytes, Flagged};

pub const IDENTITY: u8 = 1;
pub const YEAR: u8 = 2;
pub const MONTH: u8 = 3;
pub const DAY: u8 = 4;
pub const BUCKET: u8 = 5;

#[derive(Debug, Clone, PartialEq)]
pub struct PartitionField {
    pub source_id: i32,
    /// An offered field may leave it out.
    pub field_id: Flagged<i32>,
    pub name: Bytes,
    pub transform: u8,
    /// A bucket's; 0 with every other transform.
    pub number: i32,
}

#[derive(Debug, Clone, PartialEq)]
pub struct Spec {
    pub id: i32,
    pub fields: Vec<PartitionField>,
}

/// The id of the only spec of metadata that is given none, which is the default.
pub const DEFAULT_SPEC_ID: i32 = 0;

/// The last partition id of metadata that is given no specs.
pub const LAST_PARTITION_ID: i32 = 999;

impl Spec {
    /// The only spec of metadata that is given none.
    pub fn unpartitioned() -> Self {
        let (id, fields) = (DEFAULT_SPEC_ID, Vec::new());
        Self { id, fields }
    }
}
