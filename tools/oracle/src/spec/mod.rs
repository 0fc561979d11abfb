//! Stand-ins for `crate::spec`, made for the domain of documents 01 and 02, and the published builder compiled over them.

mod minute;
mod not_taken;
mod partition;
mod partition_builder;
mod schema;
mod snapshot;
mod sort;
mod statistics;
mod table_metadata;
mod transform;
// A part of the published file is taken; the rest is compiled and never called.
#[allow(dead_code, clippy::all)]
pub mod table_metadata_builder;

pub use minute::{MINUTE_MS, ONE_MINUTE_MS, set_tolerance};
pub use not_taken::{EncryptedKey, not_taken};
pub use partition::{
    DEFAULT_PARTITION_SPEC_ID, PartitionField, PartitionSpec, StructType,
    UNPARTITIONED_LAST_ASSIGNED_ID, UnboundPartitionField, UnboundPartitionSpec,
};
pub use partition_builder::PartitionSpecBuilder;
pub use schema::{DEFAULT_SCHEMA_ID, NestedField, PrimitiveType, Schema, SchemaRef};
pub use snapshot::{
    MAIN_BRANCH, Snapshot, SnapshotLog, SnapshotRef, SnapshotReference, SnapshotRetention,
};
pub use sort::{SortField, SortOrder, SortOrderRef};
pub use statistics::{PartitionStatisticsFile, StatisticsFile};
pub use table_metadata::{
    FormatVersion, INITIAL_ROW_ID, MIN_FORMAT_VERSION_ROW_LINEAGE, MetadataLog, TableMetadata,
    TableMetadataRef, TableProperties,
};
pub use transform::Transform;
