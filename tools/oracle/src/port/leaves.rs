//! The small entry points, each asked of the published builder by an update that shows it.

use super::own::{Own, Owns};
use super::run::{Outcome, run};
use super::steps::{begin, step};
use crate::case::{
    DEFAULT_SPEC_ID, Flagged, LAST_PARTITION_ID, Metadata, MetadataLogEntry, Order, Run, Schema,
    Snapshot, SnapshotLogEntry, Spec, Terms, Update,
};
use crate::published::to_published as to;
use crate::spec::table_metadata_builder::TableMetadataBuilder;
use crate::spec::{MINUTE_MS, TableMetadata, set_tolerance};

/// So many entries make a limit below their number visible.
const LIMIT_SHOWN: usize = 1000;

/// Well-formed metadata of version 3 that holds one schema and one order, neither with fields, and nothing else.
pub fn bare() -> Metadata {
    Metadata {
        version: 3,
        uuid: [0; 16],
        location: Vec::new(),
        last_updated_ms: 0,
        last_sequence_number: 0,
        next_row_id: 0,
        last_column_id: 0,
        current_snapshot_id: Flagged::of(None),
        snapshots: Vec::new(),
        refs: Vec::new(),
        snapshot_log: Vec::new(),
        metadata_log: Vec::new(),
        schemas: vec![Schema::unnamed(0, [])],
        current_schema_id: 0,
        orders: vec![Order {
            id: 0,
            fields: Vec::new(),
        }],
        default_order_id: 0,
        statistics: Vec::new(),
        partition_statistics: Vec::new(),
        specs: vec![Spec::unpartitioned()],
        default_spec_id: DEFAULT_SPEC_ID,
        last_partition_id: LAST_PARTITION_ID,
    }
}

pub fn bare_metadata() -> TableMetadata {
    to::metadata(&bare(), None)
}

/// The limit is what a close keeps of a long metadata log. A limit that keeps all of it is read by the wrapper.
pub fn limit(text: Option<&[u8]>) -> (u64, Owns) {
    let entry = MetadataLogEntry {
        file: Vec::new(),
        timestamp_ms: 0,
    };
    let metadata_log = vec![entry; LIMIT_SHOWN];
    let start = Metadata {
        metadata_log,
        ..bare()
    };
    let builder = TableMetadataBuilder::new_from_metadata(to::metadata(&start, text), None);
    let built = builder.build().expect("bare metadata closes");
    let kept = built.metadata.metadata_log.len();
    let read = text.and_then(|text| to::text(text).parse().ok());
    match read {
        Some(limit) if kept == LIMIT_SHOWN => (limit, Owns::from([Own::LargeLimit])),
        _ => (kept as u64, Owns::new()),
    }
}

fn run_of(metadata: Metadata, updates: Vec<Update>) -> Run {
    Run {
        metadata,
        clock: 0,
        file: None,
        limit: None,
        updates,
    }
}

fn add(timestamp_ms: i64, rows: (u64, u64)) -> Update {
    Update::AddSnapshot(Snapshot {
        id: 0,
        parent: Flagged::of(None),
        sequence: 0,
        timestamp_ms,
        rows: Flagged::of(Some(rows)),
    })
}

/// Whether a snapshot of this time can be added after a log that ends at `last`, by this tolerance, which may be any number.
pub fn time_window(time: i64, last: i64, tolerance: i64) -> (bool, Owns) {
    let mut owns = Owns::new();
    let answer = within(time, last, tolerance, &mut owns);
    if answer != within(time, last, MINUTE_MS, &mut Owns::new()) {
        owns.insert(Own::Tolerance);
    }
    (answer, owns)
}

/// Whether the addition is not refused with 7. (8 is asked after 7.) The tolerance is set when the run has begun, so that 26 is not asked.
fn within(time: i64, last: i64, tolerance: i64, owns: &mut Owns) -> bool {
    if tolerance == i64::MIN {
        // It has no negation. Moved by one each, it and the time have the same sum, or one that is still below every last time.
        owns.insert(Own::ExactTime);
        return within(time.saturating_sub(1), last, tolerance + 1, owns);
    }
    let entry = SnapshotLogEntry {
        snapshot_id: 0,
        timestamp_ms: last,
    };
    let start = Metadata {
        snapshot_log: vec![entry],
        ..bare()
    };
    let begun = begin(&run_of(start, Vec::new()), Terms::default(), owns);
    let going = begun.expect("bare metadata begins");
    set_tolerance(tolerance);
    !matches!(step(going, &add(time, (0, 0)), owns), Err(7))
}

/// Adds a snapshot with this row range.
pub fn row_ids(next_row_id: u64, first_row: u64, added_rows: u64) -> Outcome {
    let start = Metadata {
        next_row_id,
        ..bare()
    };
    let updates = vec![add(0, (first_row, added_rows))];
    run(&run_of(start, updates), Terms::default())
}

/// Sets the location of metadata that has an empty one.
pub fn trim(location: &[u8]) -> Vec<u8> {
    let builder = TableMetadataBuilder::new_from_metadata(bare_metadata(), None);
    let builder = builder.set_location(to::text(location));
    crate::published::from_published::bytes(&builder.held().location)
}
