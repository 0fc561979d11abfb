//! The case format's records. They hold all that the input says, also where it breaks the rules: more items than there are
//! slots, values behind a flag of 0, unknown kinds.

pub mod capacity;
mod more;
mod partition;
mod read;
mod read_records;
mod schema;
mod tokens;
mod update;
mod write;
mod write_records;

pub use more::{More, OFFICE_1, OFFICE_2, TOLERANCES, Table, Terms};
pub use partition::{
    BUCKET, DAY, DEFAULT_SPEC_ID, IDENTITY, LAST_PARTITION_ID, MONTH, PartitionField, Spec, YEAR,
};
pub use read::CaseReader;
pub use schema::{LONG, Schema, SchemaField, TIMESTAMP};
pub use tokens::{BadCase, Tokens};
pub use update::Update;
pub use write::Line;

pub type Bytes = Vec<u8>;

/// A value and the flag in front of it; in a well-formed record the value behind a flag of 0 is 0.
#[derive(Debug, Clone, Copy, PartialEq)]
pub struct Flagged<T> {
    pub present: bool,
    pub value: T,
}

impl<T: Default + Copy> Flagged<T> {
    pub fn of(value: Option<T>) -> Self {
        Self {
            present: value.is_some(),
            value: value.unwrap_or_default(),
        }
    }

    pub fn get(&self) -> Option<T> {
        self.present.then_some(self.value)
    }
}

#[derive(Debug, Clone, PartialEq)]
pub struct Snapshot {
    pub id: i64,
    pub parent: Flagged<i64>,
    pub sequence: i64,
    pub timestamp_ms: i64,
    /// First row id and added rows.
    pub rows: Flagged<(u64, u64)>,
}

pub const BRANCH: u8 = 1;
pub const TAG: u8 = 2;

#[derive(Debug, Clone, PartialEq)]
pub struct Ref {
    pub name: Bytes,
    pub snapshot_id: i64,
    pub kind: u8,
    pub min_snapshots: Flagged<i32>,
    pub max_snapshot_age_ms: Flagged<i64>,
    pub max_ref_age_ms: Flagged<i64>,
    /// The office that it belongs to. A ref in an update or a log has none: there it is 1, and nobody looks.
    pub owner: u8,
}

#[derive(Debug, Clone, Copy, PartialEq)]
pub struct SortField {
    pub source_id: i32,
    pub direction: u8,
    pub nulls: u8,
}

#[derive(Debug, Clone, PartialEq)]
pub struct Order {
    pub id: i64,
    pub fields: Vec<SortField>,
}

/// The statistics file of a snapshot. Statistics and partition statistics have a table each.
#[derive(Debug, Clone, PartialEq)]
pub struct StatisticsFile {
    pub snapshot_id: i64,
    pub path: Bytes,
    pub size: i64,
}

#[derive(Debug, Clone, PartialEq)]
pub struct SnapshotLogEntry {
    pub snapshot_id: i64,
    pub timestamp_ms: i64,
}

#[derive(Debug, Clone, PartialEq)]
pub struct MetadataLogEntry {
    pub file: Bytes,
    pub timestamp_ms: i64,
}

#[derive(Debug, Clone, PartialEq)]
pub struct Metadata {
    pub version: u8,
    pub uuid: [u8; 16],
    pub location: Bytes,
    pub last_updated_ms: i64,
    pub last_sequence_number: i64,
    pub next_row_id: u64,
    pub last_column_id: i32,
    pub current_snapshot_id: Flagged<i64>,
    pub snapshots: Vec<Snapshot>,
    pub refs: Vec<Ref>,
    pub snapshot_log: Vec<SnapshotLogEntry>,
    pub metadata_log: Vec<MetadataLogEntry>,
    pub schemas: Vec<Schema>,
    pub current_schema_id: i32,
    pub orders: Vec<Order>,
    pub default_order_id: i64,
    pub statistics: Vec<StatisticsFile>,
    pub partition_statistics: Vec<StatisticsFile>,
    pub specs: Vec<Spec>,
    pub default_spec_id: i32,
    pub last_partition_id: i32,
}

#[derive(Debug, Clone)]
pub struct Run {
    pub metadata: Metadata,
    pub clock: i64,
    pub file: Option<Bytes>,
    pub limit: Option<Bytes>,
    pub updates: Vec<Update>,
}

/// The part of a walk that both its entries share.
#[derive(Debug, Clone)]
pub struct WalkTerms {
    pub start: i64,
    pub excluded: Flagged<i64>,
    pub buffer_length: u64,
}

#[derive(Debug, Clone)]
pub enum Case {
    Run(Box<Run>),
    RunGiven(Box<Run>, More),
    Walk {
        ids: Vec<i64>,
        parents: Vec<i64>,
        terms: WalkTerms,
    },
    WalkRecords {
        snapshots: Vec<Snapshot>,
        terms: WalkTerms,
    },
    Limit(Option<Vec<u8>>),
    TimeWindow {
        time: i64,
        last: i64,
    },
    TimeWindowGiven {
        time: i64,
        last: i64,
        tolerance: i64,
    },
    RowIds {
        next_row_id: u64,
        first_row: u64,
        added_rows: u64,
    },
    Trim(Vec<u8>),
    CurrentAt {
        log: Vec<SnapshotLogEntry>,
        time: i64,
    },
    RowsApart(Box<Metadata>),
}

impl Case {
    pub fn kind(&self) -> &'static str {
        match self {
            Self::Run(_) => "run",
            Self::RunGiven(..) => "run given more",
            Self::Walk { .. } => "walk",
            Self::WalkRecords { .. } => "walk over records",
            Self::Limit(_) => "limit",
            Self::TimeWindow { .. } => "time window",
            Self::TimeWindowGiven { .. } => "time window given a tolerance",
            Self::RowIds { .. } => "row ids",
            Self::Trim(_) => "trim",
            Self::CurrentAt { .. } => "current at a time",
            Self::RowsApart(_) => "rows apart",
        }
    }

    /// The run and its terms, if the case is a run.
    pub fn run(&self) -> Option<(&Run, Terms)> {
        match self {
            Self::Run(run) => Some((run, Terms::default())),
            Self::RunGiven(run, more) => Some((run, more.terms())),
            _ => None,
        }
    }
}
