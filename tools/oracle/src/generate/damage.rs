//! Breaks one rule for well-formed records, and leaves the rest as it is.

use super::random::Random;
use super::specs;
use super::start::fill_metadata_log;
use crate::case::{
    Bytes, Flagged, Metadata, Order, Ref, Run, Schema, Snapshot, SnapshotLogEntry, SortField,
    StatisticsFile, TAG, Update, capacity,
};

const HIDDEN: Flagged<i64> = Flagged {
    present: false,
    value: 1,
};

/// Damages the metadata, or the current file's name.
pub fn start(random: &mut Random, run: &mut Run) {
    let m = &mut run.metadata;
    match random.below(12) {
        0 => table(
            random,
            &mut m.snapshots,
            capacity::SNAPSHOTS,
            snapshot,
            |s, i| s.id = i,
        ),
        1 => table(random, &mut m.refs, capacity::REFS, reference, |r, i| {
            r.name = format!("z{i}").into_bytes();
        }),
        2 => table(random, &mut m.schemas, capacity::SCHEMAS, schema, |s, i| {
            s.id = i as i32
        }),
        3 => table(
            random,
            &mut m.orders,
            capacity::ORDERS,
            held_order,
            |o, i| {
                o.id = i;
                o.fields.resize(1, ASCENDING);
            },
        ),
        4 => statistics(random, &mut m.statistics),
        5 => statistics(random, &mut m.partition_statistics),
        6 | 7 => logs(random, run),
        8 | 9 => current(random, m),
        _ => single_fields(random, m),
    }
}

/// Makes the update ill formed.
pub fn update(random: &mut Random, update: &mut Update) {
    match update {
        Update::UpgradeFormatVersion(version) => *version = random.one_of(&[0, 4, 255]),
        Update::SetLocation(location) => too_long(random, location, capacity::LOCATION),
        Update::AddSnapshot(s) => snapshot(random, s),
        Update::SetBranchSnapshot(_, s) if random.percent(60) => snapshot(random, s),
        Update::SetBranchSnapshot(name, _) | Update::RemoveRef(name) => {
            too_long(random, name, capacity::REF_NAME)
        }
        Update::RemoveSnapshots(ids) => removal(random, ids, -1),
        Update::SetRef(r) => reference(random, r),
        Update::AddSchema(s) => schema(random, s),
        Update::AddNamedSchema(s) => specs::damage_schema(random, s),
        Update::SetCurrentSchema(id) => *id = random.one_of(&[-2, i32::MIN]),
        Update::RemoveSchemas(ids) => removal(random, ids, -1),
        Update::AddSortOrder(o) => order(random, o),
        Update::SetDefaultSortOrder(id) => *id = random.one_of(&[-2, i64::MIN]),
        Update::SetStatistics(f) | Update::SetPartitionStatistics(f) => statistics_file(random, f),
        Update::RemoveStatistics(id) | Update::RemovePartitionStatistics(id) => {
            *id = random.one_of(&[-1, i64::MIN])
        }
        Update::AddPartitionSpec(s) => specs::damage_offer(random, s),
        Update::SetDefaultPartitionSpec(id) => *id = random.one_of(&[-2, i32::MIN]),
        Update::RemovePartitionSpecs(ids) => removal(random, ids, -1),
        Update::AssignUuid(_) | Update::UnknownKind(_) => {
            *update = Update::UnknownKind(random.one_of(&[0, 22, 255]))
        }
    }
}

/// Either table of statistics files, unless it is empty.
fn statistics(random: &mut Random, files: &mut Vec<StatisticsFile>) {
    table(
        random,
        files,
        capacity::STATISTICS,
        statistics_file,
        |f, i| f.snapshot_id = i,
    )
}

/// Damages a keyed table: its order, the inequality of its keys, its count, or one of its records.
pub fn table<R: Clone>(
    random: &mut Random,
    records: &mut Vec<R>,
    slots: usize,
    record: impl Fn(&mut Random, &mut R),
    set_key: impl Fn(&mut R, i64),
) {
    let Some(last) = records.last().cloned() else {
        return;
    };
    match random.below(5) {
        0 => {
            let place = random.below(records.len());
            records[place..].rotate_left(1);
        }
        1 => records.push(last),
        2 => {
            let more = slots + 1 + random.below(3);
            records.resize(more, last);
            // Keys ascend, so that only the count is at fault.
            (0..)
                .zip(records.iter_mut())
                .for_each(|(i, r)| set_key(r, 1000 + i));
        }
        _ => {
            let place = random.below(records.len());
            record(random, &mut records[place]);
        }
    }
}

fn logs(random: &mut Random, run: &mut Run) {
    let m = &mut run.metadata;
    let entry = SnapshotLogEntry {
        snapshot_id: 0,
        timestamp_ms: 0,
    };
    match random.below(5) {
        0 => m.snapshot_log.resize(capacity::SNAPSHOT_LOG + 1, entry),
        1 => m.snapshot_log.iter_mut().for_each(|e| e.snapshot_id = -1),
        2 => {
            fill_metadata_log(m);
            m.metadata_log.extend_from_within(..1);
        }
        3 => {
            if let Some(entry) = m.metadata_log.last_mut() {
                too_long(random, &mut entry.file, capacity::FILE_NAME);
            }
        }
        _ => {
            let mut file = Bytes::new();
            too_long(random, &mut file, capacity::FILE_NAME);
            run.file = Some(file);
        }
    }
}

/// Current snapshot and `main`, current schema, default order.
fn current(random: &mut Random, m: &mut Metadata) {
    match random.below(6) {
        0 => m.current_snapshot_id.present ^= true,
        1 => m.current_snapshot_id.value = m.current_snapshot_id.value.wrapping_add(1),
        2 => m.refs.retain(|r| r.name != b"main"),
        3 => m.snapshots.clear(),
        4 => m.current_schema_id = random.one_of(&[-1, 77, i32::MIN]),
        _ => m.default_order_id = random.one_of(&[-1, 77, i64::MIN]),
    }
}

fn single_fields(random: &mut Random, m: &mut Metadata) {
    match random.below(3) {
        0 => m.version = random.one_of(&[0, 4, 255]),
        1 => m.last_sequence_number = random.one_of(&[-1, i64::MIN]),
        _ => too_long(random, &mut m.location, capacity::LOCATION),
    }
}

pub fn too_long(random: &mut Random, text: &mut Bytes, slots: usize) {
    let length = slots + 1 + random.one_of(&[0, 0, 30]);
    text.resize(length, random.one_of(b"x/"));
}

fn snapshot(random: &mut Random, s: &mut Snapshot) {
    match random.below(5) {
        0 => s.id = random.one_of(&[-1, i64::MIN]),
        1 => s.parent = Flagged::of(Some(random.one_of(&[-1, i64::MIN]))),
        2 => s.parent = HIDDEN,
        3 => s.sequence = -1,
        _ => {
            s.rows = Flagged {
                present: false,
                value: random.one_of(&[(0, 1), (1, 0)]),
            }
        }
    }
}

fn reference(random: &mut Random, r: &mut Ref) {
    match random.below(9) {
        0 => too_long(random, &mut r.name, capacity::REF_NAME),
        1 => r.snapshot_id = -1,
        2 => r.kind = random.one_of(&[0, 3, 255]),
        3 => r.min_snapshots = Flagged::of(Some(random.one_of(&[0, i32::MIN]))),
        4 => r.max_snapshot_age_ms = Flagged::of(Some(random.one_of(&[0, -1]))),
        5 => r.max_ref_age_ms = Flagged::of(Some(random.one_of(&[0, i64::MIN]))),
        6 => r.max_snapshot_age_ms = HIDDEN,
        7 => r.max_ref_age_ms = HIDDEN,
        _ => {
            r.kind = TAG;
            r.min_snapshots = Flagged::of(Some(1));
        }
    }
}

fn schema(random: &mut Random, s: &mut Schema) {
    match random.below(4) {
        0 => s.id = random.one_of(&[-1, i32::MIN]),
        1 => *s = Schema::unnamed(s.id, 1..=capacity::SCHEMA_FIELDS as i32 + 1),
        2 => *s = Schema::unnamed(s.id, [4, 5, 4]),
        _ => *s = Schema::unnamed(s.id, [1, random.one_of(&[0, -1, i32::MIN])]),
    }
}

const ASCENDING: SortField = SortField {
    source_id: 1,
    direction: 0,
    nulls: 0,
};

fn order(random: &mut Random, o: &mut Order) {
    o.fields.resize(o.fields.len().max(1), ASCENDING);
    let last = o.fields.last_mut().expect("it has a field");
    match random.below(5) {
        0 => o.id = random.one_of(&[-1, i64::MIN]),
        1 => last.source_id = random.one_of(&[0, -1]),
        2 => last.direction = random.one_of(&[2, 255]),
        3 => last.nulls = random.one_of(&[2, 255]),
        _ => o.fields.resize(capacity::ORDER_FIELDS + 1, ASCENDING),
    }
}

/// In metadata also: an order has no fields exactly if its id is 0.
fn held_order(random: &mut Random, o: &mut Order) {
    match random.below(3) {
        0 if o.id == 0 => o.fields.push(ASCENDING),
        0 => o.fields.clear(),
        _ => order(random, o),
    }
}

fn statistics_file(random: &mut Random, f: &mut StatisticsFile) {
    match random.below(3) {
        0 => f.snapshot_id = random.one_of(&[-1, i64::MIN]),
        1 => too_long(random, &mut f.path, capacity::FILE_NAME),
        _ => f.size = random.one_of(&[-1, i64::MIN]),
    }
}

fn removal<T: Copy>(random: &mut Random, ids: &mut Vec<T>, below: T) {
    match random.below(2) {
        0 => ids.push(below),
        _ => {
            let id = ids.first().copied().unwrap_or(below);
            ids.resize(capacity::REMOVAL_IDS + 1, id);
        }
    }
}
