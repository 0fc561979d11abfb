//! The inputs, in the order of the page, each as small as shows its row.

use super::specs;
use crate::case::{
    BRANCH, Case, Flagged, Metadata, MetadataLogEntry, More, OFFICE_1, Order, Ref, Run, Schema,
    Snapshot, SnapshotLogEntry, SortField, StatisticsFile, Update, WalkTerms, capacity,
};
use crate::port;

pub fn all() -> Vec<(&'static str, Case)> {
    [
        arithmetic(),
        row_ids(),
        tolerances(),
        capacities(),
        starts(),
        numbers_below_their_bounds(),
        picks(),
        specs::all(),
        walks(),
    ]
    .into_iter()
    .flatten()
    .collect()
}

/// Version 2, one schema and one order with id 0 and no fields, and nothing else.
pub fn bare() -> Metadata {
    Metadata {
        version: 2,
        ..port::bare()
    }
}

fn run_of(metadata: Metadata, updates: Vec<Update>) -> Run {
    Run {
        metadata,
        clock: 0,
        file: None,
        limit: None,
        updates,
    }
}

pub fn run(metadata: Metadata, updates: Vec<Update>) -> Case {
    Case::Run(Box::new(run_of(metadata, updates)))
}

fn snapshot(id: i64, timestamp_ms: i64) -> Snapshot {
    Snapshot {
        id,
        parent: Flagged::of(None),
        sequence: 0,
        timestamp_ms,
        rows: Flagged::of(None),
    }
}

fn reference(name: &str, snapshot_id: i64, min_snapshots: Option<i32>) -> Ref {
    Ref {
        name: name.into(),
        snapshot_id,
        kind: BRANCH,
        min_snapshots: Flagged::of(min_snapshots),
        max_snapshot_age_ms: Flagged::of(None),
        max_ref_age_ms: Flagged::of(None),
        owner: OFFICE_1,
    }
}

fn entry(snapshot_id: i64, timestamp_ms: i64) -> SnapshotLogEntry {
    SnapshotLogEntry {
        snapshot_id,
        timestamp_ms,
    }
}

fn schema(id: i32, field: Option<i32>) -> Schema {
    Schema::unnamed(id, field)
}

fn by_field_1(id: i64, direction: u8) -> Order {
    let field = SortField {
        source_id: 1,
        direction,
        nulls: 0,
    };
    Order {
        id,
        fields: vec![field],
    }
}

fn statistics_file(snapshot_id: i64, path: &[u8], size: i64) -> StatisticsFile {
    StatisticsFile {
        snapshot_id,
        path: path.to_vec(),
        size,
    }
}

fn arithmetic() -> Vec<(&'static str, Case)> {
    let largest_schema = Metadata {
        schemas: vec![schema(i32::MAX, None)],
        current_schema_id: i32::MAX,
        ..bare()
    };
    let largest_order = Metadata {
        schemas: vec![schema(0, Some(1))],
        orders: vec![by_field_1(i64::MAX, 0)],
        default_order_id: i64::MAX,
        ..bare()
    };
    let after = |last| Metadata {
        snapshot_log: vec![entry(0, last)],
        last_updated_ms: last.min(0),
        ..bare()
    };
    let late_update = Metadata {
        last_updated_ms: i64::MAX,
        ..bare()
    };
    let add = |time| vec![Update::AddSnapshot(snapshot(0, time))];
    vec![
        (
            "a new schema above the largest id",
            run(largest_schema, vec![Update::AddSchema(schema(0, Some(1)))]),
        ),
        (
            "a new order above the largest id",
            run(largest_order, vec![Update::AddSortOrder(by_field_1(0, 1))]),
        ),
        (
            "a snapshot long before the last entry",
            run(after(i64::MAX), add(-2)),
        ),
        (
            "a snapshot long before the last update",
            run(late_update, add(-2)),
        ),
        (
            "a snapshot long after the last entry",
            run(after(-2), add(i64::MAX)),
        ),
    ]
}

/// At version 3, from next row id 0.
fn row_ids() -> Vec<(&'static str, Case)> {
    let add = |id, rows| {
        Update::AddSnapshot(Snapshot {
            rows: Flagged::of(Some(rows)),
            ..snapshot(id, 0)
        })
    };
    vec![
        (
            "next row id 0: no rows from 1",
            run(port::bare(), vec![add(0, (1, 0))]),
        ),
        (
            "next row id 0: 50 rows from 100",
            run(port::bare(), vec![add(0, (100, 50))]),
        ),
        (
            "the same, then 100 rows from 50",
            run(port::bare(), vec![add(0, (100, 50)), add(1, (50, 100))]),
        ),
        (
            "next row id 0: a row from 2^64 - 1",
            run(port::bare(), vec![add(0, (u64::MAX, 1))]),
        ),
    ]
}

/// On both sides of a minute, after an entry and after a last update; and just outside the bounds.
fn tolerances() -> Vec<(&'static str, Case)> {
    let start = Metadata {
        snapshot_log: vec![entry(0, 100_000)],
        ..bare()
    };
    let late_update = Metadata {
        last_updated_ms: 100_000,
        ..bare()
    };
    let given = |metadata: &Metadata, time, tolerance| {
        let updates = vec![Update::AddSnapshot(snapshot(0, time))];
        let more = More {
            tolerance: Some(tolerance),
            ..More::default()
        };
        Case::RunGiven(Box::new(run_of(metadata.clone(), updates)), more)
    };
    vec![
        (
            "last entry 100000, a snapshot at 39999, tolerance 60001",
            given(&start, 39_999, 60_001),
        ),
        (
            "last update 100000, a snapshot at 39999, tolerance 60001",
            given(&late_update, 39_999, 60_001),
        ),
        (
            "last entry 100000, a snapshot at 40000, tolerance 59999",
            given(&start, 40_000, 59_999),
        ),
        (
            "last update 100000, a snapshot at 40000, tolerance 59999",
            given(&late_update, 40_000, 59_999),
        ),
        ("tolerance -1", given(&bare(), 0, -1)),
        ("tolerance 3600001", given(&bare(), 0, 3_600_001)),
    ]
}

fn capacities() -> Vec<(&'static str, Case)> {
    let snapshots = capacity::SNAPSHOTS as i64;
    let full = Metadata {
        snapshots: (0..snapshots).map(|id| snapshot(id, 0)).collect(),
        ..bare()
    };
    let file = MetadataLogEntry {
        file: vec![],
        timestamp_ms: 0,
    };
    let long_history = Metadata {
        metadata_log: vec![file; capacity::METADATA_LOG],
        ..bare()
    };
    let mut one_file_more = run(long_history, vec![]);
    if let Case::Run(run) = &mut one_file_more {
        run.file = Some(vec![]);
        run.limit = Some(b"129".to_vec());
    }
    let files = |set: fn(StatisticsFile) -> Update| {
        let ids = 0..=capacity::STATISTICS as i64;
        let all = ids.map(|id| set(statistics_file(id, b"", 0)));
        run(bare(), all.collect())
    };
    let slashes = vec![b'/'; capacity::LOCATION + 1];
    let long_path = statistics_file(0, &[b'/'; capacity::FILE_NAME + 1], 0);
    let updates = vec![Update::RemoveSnapshots(vec![]); capacity::LIST_SUM + 1];
    vec![
        (
            "64 snapshots and one more",
            run(full, vec![Update::AddSnapshot(snapshot(snapshots, 0))]),
        ),
        ("128 metadata files and one more, limit 129", one_file_more),
        (
            "33 statistics files, one after another",
            files(Update::SetStatistics),
        ),
        (
            "33 partition statistics files, one after another",
            files(Update::SetPartitionStatistics),
        ),
        (
            "a location of 97 slashes",
            run(bare(), vec![Update::SetLocation(slashes)]),
        ),
        (
            "a statistics file with a path of 97 slashes",
            run(bare(), vec![Update::SetStatistics(long_path)]),
        ),
        ("a list of 65 updates", run(bare(), updates)),
    ]
}

fn starts() -> Vec<(&'static str, Case)> {
    let with_main = Metadata {
        snapshots: vec![snapshot(3, 0)],
        refs: vec![reference("main", 3, None)],
        current_snapshot_id: Flagged::of(Some(3)),
        snapshot_log: vec![entry(3, 0)],
        ..bare()
    };
    let removed_and_added = vec![
        Update::RemoveSnapshots(vec![3]),
        Update::AddSnapshot(snapshot(3, 0)),
    ];
    let without_main = Metadata {
        refs: vec![],
        ..with_main.clone()
    };
    let unheld = Metadata {
        refs: vec![reference("a", 3, None)],
        ..bare()
    };
    let no_current_schema = Metadata {
        current_schema_id: 1,
        ..bare()
    };
    let no_default_order = Metadata {
        default_order_id: 1,
        ..bare()
    };
    vec![
        (
            "the current snapshot removed and added again, `main` not set",
            run(with_main, removed_and_added),
        ),
        ("a start whose `main` is gone", run(without_main, vec![])),
        ("a start with a ref to no snapshot", run(unheld, vec![])),
        (
            "a start without its current schema",
            run(no_current_schema, vec![]),
        ),
        (
            "a start without its default order",
            run(no_default_order, vec![]),
        ),
    ]
}

fn numbers_below_their_bounds() -> Vec<(&'static str, Case)> {
    let held = Metadata {
        snapshots: vec![snapshot(1, 0)],
        ..bare()
    };
    let low_sequence = Snapshot {
        sequence: -1,
        ..snapshot(1, 0)
    };
    let low_parent = Snapshot {
        parent: Flagged::of(Some(-1)),
        sequence: 1,
        ..snapshot(1, 0)
    };
    let one = |metadata, update| run(metadata, vec![update]);
    vec![
        (
            "a ref that keeps at least 0 snapshots",
            one(held, Update::SetRef(reference("a", 1, Some(0)))),
        ),
        (
            "a ref to snapshot -1",
            one(bare(), Update::SetRef(reference("a", -1, None))),
        ),
        (
            "snapshot -1",
            one(bare(), Update::AddSnapshot(snapshot(-1, 0))),
        ),
        (
            "a snapshot with parent -1",
            one(bare(), Update::AddSnapshot(low_parent)),
        ),
        (
            "a snapshot with sequence number -1",
            one(bare(), Update::AddSnapshot(low_sequence)),
        ),
        (
            "snapshot -1 removed",
            one(bare(), Update::RemoveSnapshots(vec![-1])),
        ),
        (
            "schema -1 removed",
            one(bare(), Update::RemoveSchemas(vec![-1])),
        ),
        (
            "a schema offered with id -1",
            one(bare(), Update::AddSchema(schema(-1, None))),
        ),
        (
            "a statistics file of snapshot -1",
            one(bare(), Update::SetStatistics(statistics_file(-1, b"", 0))),
        ),
        (
            "a statistics file of size -1",
            one(bare(), Update::SetStatistics(statistics_file(0, b"", -1))),
        ),
        (
            "statistics of snapshot -1 removed",
            one(bare(), Update::RemoveStatistics(-1)),
        ),
        (
            "current schema -2",
            one(bare(), Update::SetCurrentSchema(-2)),
        ),
        (
            "default order -2",
            one(bare(), Update::SetDefaultSortOrder(-2)),
        ),
    ]
}

/// Schemas 1 and 2 are equal; what is added is reused as either.
fn picks() -> Vec<(&'static str, Case)> {
    let twins = Metadata {
        schemas: vec![schema(0, None), schema(1, Some(1)), schema(2, Some(1))],
        ..bare()
    };
    let then = |updates: [Update; 2]| {
        let mut all = vec![Update::AddSchema(schema(0, Some(1)))];
        all.extend(updates);
        run(twins.clone(), all)
    };
    let set = || Update::SetCurrentSchema(-1);
    let remove = |id| Update::RemoveSchemas(vec![id]);
    vec![
        (
            "equal schemas 1 and 2: add an equal one, remove 1, set -1",
            then([remove(1), set()]),
        ),
        ("the same, but remove 2", then([remove(2), set()])),
        (
            "equal schemas 1 and 2: add an equal one, set -1, remove 1",
            then([set(), remove(1)]),
        ),
        ("the same, but remove 2", then([set(), remove(2)])),
    ]
}

fn walks() -> Vec<(&'static str, Case)> {
    let walk = |id, parent, buffer_length| Case::Walk {
        ids: vec![id],
        parents: vec![parent],
        terms: WalkTerms {
            start: id,
            excluded: Flagged::of(None),
            buffer_length,
        },
    };
    vec![
        ("a walk from snapshot 1, whose parent is 1", walk(1, 1, 1)),
        ("a walk from snapshot -1", walk(-1, -1, 1)),
        ("a walk with no room for its answer", walk(1, -1, 0)),
    ]
}
