//! The workloads, as records, so that every engine is given the same.

use crate::case::{
    BRANCH, DEFAULT_SPEC_ID, Flagged, LAST_PARTITION_ID, Metadata, MetadataLogEntry, OFFICE_1,
    Order, Ref, Run, Schema, Snapshot, SnapshotLogEntry, SortField, Spec, TAG, Update,
};

pub enum Workload {
    /// A whole run, close included.
    Run(Run),
    /// The close alone, after the updates, and the metadata that they leave to it.
    Close { run: Run, left: Metadata },
    Walk {
        ids: Vec<i64>,
        parents: Vec<i64>,
        start: i64,
    },
    WalkRecords {
        snapshots: Vec<Snapshot>,
        start: i64,
    },
}

pub fn all() -> [(&'static str, Workload); 5] {
    let ids: Vec<i64> = (0..64).collect();
    let parents: Vec<i64> = (-1..63).collect();
    [
        ("run of 64 updates", Workload::Run(run_of_64())),
        (
            "run of 2, 64 snapshots, 128 entries, one removal",
            Workload::Run(removal()),
        ),
        (
            "its close alone",
            Workload::Close {
                run: removal(),
                left: removed(),
            },
        ),
        (
            "walk of 64",
            Workload::Walk {
                ids,
                parents,
                start: 63,
            },
        ),
        (
            "walk of 64 over records",
            Workload::WalkRecords {
                snapshots: (0..64).map(snapshot).collect(),
                start: 63,
            },
        ),
    ]
}

fn time(id: i64) -> i64 {
    1_700_000_000_000 + 1000 * id
}

pub fn snapshot(id: i64) -> Snapshot {
    Snapshot {
        id,
        parent: Flagged::of(Some(id - 1).filter(|parent| *parent >= 0)),
        sequence: id + 1,
        timestamp_ms: time(id),
        rows: Flagged::of(Some((100 * id as u64, 100))),
    }
}

pub fn reference(name: &str, kind: u8, snapshot_id: i64) -> Ref {
    Ref {
        name: name.into(),
        snapshot_id,
        kind,
        min_snapshots: Flagged::of(None),
        max_snapshot_age_ms: Flagged::of(None),
        max_ref_age_ms: Flagged::of(None),
        owner: OFFICE_1,
    }
}

pub fn schema(id: i32) -> Schema {
    Schema::unnamed(id, 1..=8 + id)
}

pub fn order(id: i64) -> Order {
    let field = SortField {
        source_id: id as i32,
        direction: 0,
        nulls: 1,
    };
    Order {
        id,
        fields: Vec::from_iter((id > 0).then_some(field)),
    }
}

/// Version 3 with so many snapshots in one line, `main` at the last of them, and a history of so many entries that ends there.
pub fn start(snapshots: i64, entries: i64) -> Metadata {
    let last = snapshots - 1;
    let entry = |i: i64| SnapshotLogEntry {
        snapshot_id: (i - entries).rem_euclid(snapshots),
        timestamp_ms: time(0) - entries + i,
    };
    let file = |i: i64| MetadataLogEntry {
        file: format!("metadata/{i:05}.metadata.json").into_bytes(),
        timestamp_ms: time(i),
    };
    Metadata {
        version: 3,
        uuid: [7; 16],
        location: b"s3://archive/table".to_vec(),
        last_updated_ms: time(last),
        last_sequence_number: snapshots,
        next_row_id: 100 * snapshots as u64,
        last_column_id: 12,
        current_snapshot_id: Flagged::of(Some(last)),
        snapshots: (0..snapshots).map(snapshot).collect(),
        refs: vec![
            reference("main", BRANCH, last),
            reference("v1", TAG, 3),
            reference("v2", TAG, 9),
        ],
        snapshot_log: (0..entries).map(entry).collect(),
        metadata_log: (0..100).map(file).collect(),
        schemas: (0..4).map(schema).collect(),
        current_schema_id: 3,
        orders: (0..4).map(order).collect(),
        default_order_id: 1,
        statistics: vec![],
        partition_statistics: vec![],
        specs: vec![Spec::unpartitioned()],
        default_spec_id: DEFAULT_SPEC_ID,
        last_partition_id: LAST_PARTITION_ID,
    }
}

pub fn run(metadata: Metadata, updates: Vec<Update>) -> Run {
    Run {
        metadata,
        clock: time(100),
        file: Some(b"metadata/00100.metadata.json".to_vec()),
        limit: None,
        updates,
    }
}

/// Eight rounds of eight updates, each of which takes effect.
fn run_of_64() -> Run {
    let round = |i: i64| {
        let id = 32 + i;
        [
            Update::AddSnapshot(snapshot(id)),
            Update::SetRef(reference("main", BRANCH, id)),
            Update::SetRef(reference(&format!("tag-{i}"), TAG, id)),
            Update::AddSchema(schema(4 + i as i32)),
            Update::SetCurrentSchema(-1),
            Update::AddSortOrder(order(4 + i)),
            Update::SetDefaultSortOrder(-1),
            Update::SetLocation(format!("s3://archive/table-{i}").into_bytes()),
        ]
    };
    run(start(32, 32), (0..8).flat_map(round).collect())
}

/// The oldest snapshot goes and a new one comes, so that the close meets 64 of them and a logged removal.
fn removal() -> Run {
    let updates = vec![
        Update::RemoveSnapshots(vec![0]),
        Update::AddSnapshot(snapshot(64)),
    ];
    run(start(64, 128), updates)
}

/// What the updates of the removal leave to the close.
fn removed() -> Metadata {
    let last = 64;
    Metadata {
        last_updated_ms: time(last),
        last_sequence_number: last + 1,
        next_row_id: 100 * (last as u64 + 1),
        snapshots: (1..=last).map(snapshot).collect(),
        ..start(64, 128)
    }
}
