//! Stand-in for table metadata: the fields that the published files read and write, and the constants around them.

use std::collections::HashMap;
use std::fmt;
use std::sync::Arc;

use super::{
    EncryptedKey, PartitionSpec, PartitionStatisticsFile, SchemaRef, SnapshotLog, SnapshotRef,
    SnapshotReference, SortOrderRef, StatisticsFile, StructType,
};
use crate::error::Result;
use crate::uuid::Uuid;

pub const INITIAL_ROW_ID: u64 = 0;
pub const MIN_FORMAT_VERSION_ROW_LINEAGE: FormatVersion = FormatVersion::V3;

#[derive(Debug, Clone, Copy, PartialEq, Eq, PartialOrd, Ord)]
pub enum FormatVersion {
    V1 = 1,
    V2 = 2,
    V3 = 3,
}

impl fmt::Display for FormatVersion {
    fn fmt(&self, f: &mut fmt::Formatter<'_>) -> fmt::Result {
        write!(f, "v{}", *self as u8)
    }
}

#[derive(Debug, Clone, PartialEq)]
pub struct MetadataLog {
    pub metadata_file: String,
    pub timestamp_ms: i64,
}

pub struct TableProperties;

impl TableProperties {
    pub const RESERVED_PROPERTIES: [&str; 0] = [];
    pub const PROPERTY_METADATA_PREVIOUS_VERSIONS_MAX: &str =
        "write.metadata.previous-versions-max";
    pub const PROPERTY_METADATA_PREVIOUS_VERSIONS_MAX_DEFAULT: usize = 100;
}

pub type TableMetadataRef = Arc<TableMetadata>;

#[derive(Debug, Clone, PartialEq)]
pub struct TableMetadata {
    pub format_version: FormatVersion,
    pub table_uuid: Uuid,
    pub location: String,
    pub last_sequence_number: i64,
    pub last_updated_ms: i64,
    pub last_column_id: i32,
    pub schemas: HashMap<i32, SchemaRef>,
    pub current_schema_id: i32,
    pub partition_specs: HashMap<i32, Arc<PartitionSpec>>,
    pub default_spec: Arc<PartitionSpec>,
    pub default_partition_type: StructType,
    pub last_partition_id: i32,
    pub properties: HashMap<String, String>,
    pub current_snapshot_id: Option<i64>,
    pub snapshots: HashMap<i64, SnapshotRef>,
    pub snapshot_log: Vec<SnapshotLog>,
    pub metadata_log: Vec<MetadataLog>,
    pub sort_orders: HashMap<i64, SortOrderRef>,
    pub default_sort_order_id: i64,
    pub refs: HashMap<String, SnapshotReference>,
    pub statistics: HashMap<i64, StatisticsFile>,
    pub partition_statistics: HashMap<i64, PartitionStatisticsFile>,
    pub encryption_keys: HashMap<String, EncryptedKey>,
    pub next_row_id: u64,
}

impl TableMetadata {
    pub fn snapshot_by_id(&self, snapshot_id: i64) -> Option<&SnapshotRef> {
        self.snapshots.get(&snapshot_id)
    }

    /// A field of some held spec has this name.
    pub fn partition_name_exists(&self, name: &str) -> bool {
        let fields = self.partition_specs.values().flat_map(|s| s.fields());
        fields.map(|f| &f.name).any(|held| held == name)
    }

    pub fn name_exists_in_any_schema(&self, name: &str) -> bool {
        self.schemas
            .values()
            .any(|schema| schema.field_by_name(name).is_some())
    }

    /// In the domain of the comparison it neither errs nor changes anything.
    pub fn try_normalize(&mut self) -> Result<&mut Self> {
        Ok(self)
    }
}
