//! Stand-ins for what the published builder takes from the crate's catalog module: the change log's entries and a table creation.

use std::collections::HashMap;

use crate::spec::{
    EncryptedKey, FormatVersion, PartitionStatisticsFile, Schema, Snapshot, SnapshotReference,
    SortOrder, StatisticsFile, UnboundPartitionSpec,
};
use crate::uuid::Uuid;

/// One entry of the change log. The builder writes all of these; the domain of documents 01 and 02 reaches those that `from_published` reads.
#[derive(Debug, Clone, PartialEq)]
pub enum TableUpdate {
    AssignUuid {
        uuid: Uuid,
    },
    UpgradeFormatVersion {
        format_version: FormatVersion,
    },
    SetLocation {
        location: String,
    },
    AddSnapshot {
        snapshot: Snapshot,
    },
    RemoveSnapshots {
        snapshot_ids: Vec<i64>,
    },
    SetSnapshotRef {
        ref_name: String,
        reference: SnapshotReference,
    },
    RemoveSnapshotRef {
        ref_name: String,
    },
    AddSchema {
        schema: Schema,
    },
    SetCurrentSchema {
        schema_id: i32,
    },
    RemoveSchemas {
        schema_ids: Vec<i32>,
    },
    AddSortOrder {
        sort_order: SortOrder,
    },
    SetDefaultSortOrder {
        sort_order_id: i64,
    },
    SetProperties {
        updates: HashMap<String, String>,
    },
    RemoveProperties {
        removals: Vec<String>,
    },
    AddSpec {
        spec: UnboundPartitionSpec,
    },
    SetDefaultSpec {
        spec_id: i32,
    },
    RemovePartitionSpecs {
        spec_ids: Vec<i32>,
    },
    SetStatistics {
        statistics: StatisticsFile,
    },
    RemoveStatistics {
        snapshot_id: i64,
    },
    SetPartitionStatistics {
        partition_statistics: PartitionStatisticsFile,
    },
    RemovePartitionStatistics {
        snapshot_id: i64,
    },
    AddEncryptionKey {
        encryption_key: EncryptedKey,
    },
    RemoveEncryptionKey {
        key_id: String,
    },
}

/// Taken apart by a function of the published builder that is not taken.
#[allow(dead_code)]
pub struct TableCreation {
    pub name: String,
    pub location: Option<String>,
    pub schema: Schema,
    pub partition_spec: Option<UnboundPartitionSpec>,
    pub sort_order: Option<SortOrder>,
    pub properties: HashMap<String, String>,
    pub format_version: FormatVersion,
}
