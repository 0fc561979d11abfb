//! Stand-ins for snapshots, refs and the snapshot log.

use std::sync::Arc;

pub const MAIN_BRANCH: &str = "main";

pub type SnapshotRef = Arc<Snapshot>;

#[derive(Debug, Clone, PartialEq)]
pub struct Snapshot {
    pub snapshot_id: i64,
    pub parent_snapshot_id: Option<i64>,
    pub sequence_number: i64,
    pub timestamp_ms: i64,
    pub row_range: Option<(u64, u64)>,
}

impl Snapshot {
    pub fn snapshot_id(&self) -> i64 {
        self.snapshot_id
    }

    pub fn parent_snapshot_id(&self) -> Option<i64> {
        self.parent_snapshot_id
    }

    pub fn sequence_number(&self) -> i64 {
        self.sequence_number
    }

    pub fn timestamp_ms(&self) -> i64 {
        self.timestamp_ms
    }

    /// First row id and added rows: both or neither.
    pub fn row_range(&self) -> Option<(u64, u64)> {
        self.row_range
    }
}

#[derive(Debug, Clone, PartialEq)]
pub struct SnapshotReference {
    pub snapshot_id: i64,
    pub retention: SnapshotRetention,
}

impl SnapshotReference {
    pub fn is_branch(&self) -> bool {
        matches!(self.retention, SnapshotRetention::Branch { .. })
    }
}

#[derive(Debug, Clone, PartialEq)]
pub enum SnapshotRetention {
    Branch {
        min_snapshots_to_keep: Option<i32>,
        max_snapshot_age_ms: Option<i64>,
        max_ref_age_ms: Option<i64>,
    },
    Tag {
        max_ref_age_ms: Option<i64>,
    },
}

#[derive(Debug, Clone, PartialEq)]
pub struct SnapshotLog {
    pub snapshot_id: i64,
    pub timestamp_ms: i64,
}
