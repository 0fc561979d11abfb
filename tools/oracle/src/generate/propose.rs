//! One update that suits the metadata as it stands: mostly one that takes effect, often one that repeats or undoes another.

use super::offices;
use super::random::Random;
use super::specs;
use super::start;
use super::world::World;
use crate::case::{
    Bytes, Flagged, Metadata, OFFICE_2, Order, Schema, Snapshot, SortField, StatisticsFile, Update,
    capacity,
};
use crate::port::Book;

/// What an update is proposed for.
pub struct Now<'a> {
    pub world: &'a World,
    /// The metadata that the updates so far have made.
    pub metadata: Metadata,
    /// The run's own last update, if it has one yet.
    pub own_last_updated_ms: Option<i64>,
    /// Whose refs and snapshots are.
    pub book: &'a Book,
}

/// Updates by kind, each as often as it is to come.
const KINDS: [(u8, usize); 17] = [
    (1, 2),
    (2, 2),
    (3, 3),
    (4, 16),
    (5, 14),
    (6, 9),
    (7, 16),
    (8, 5),
    (9, 10),
    (10, 7),
    (11, 5),
    (12, 8),
    (13, 6),
    (14, 3),
    (15, 2),
    (16, 3),
    (17, 2),
];

pub fn propose(random: &mut Random, now: &Now) -> Update {
    // Most of what follows is not office 2's to change.
    let own = match now.world.terms.office {
        OFFICE_2 => 90,
        _ => 40,
    };
    if now.world.offices && random.percent(own) {
        return offices::propose(random, now);
    }
    if let Some(pools) = now.world.specs.as_ref().filter(|_| random.percent(50)) {
        return specs::propose(random, now, pools);
    }
    let kind = match now.world.statistics && random.percent(35) {
        true => random.one_of(&[14, 14, 15, 16, 16, 17]),
        false => random.weighted(&KINDS),
    };
    of_kind(random, now, kind)
}

pub fn of_kind(random: &mut Random, now: &Now, kind: u8) -> Update {
    let m = &now.metadata;
    match kind {
        1 => Update::AssignUuid(start::uuid(random)),
        2 => Update::UpgradeFormatVersion(random.one_of(&[m.version, 2, 3])),
        3 => Update::SetLocation(location(random, now)),
        4 => Update::AddSnapshot(snapshot(random, now)),
        5 => Update::SetBranchSnapshot(ref_name(random, now), snapshot(random, now)),
        6 => Update::RemoveSnapshots(snapshot_removal(random, now)),
        7 => set_ref(random, now),
        8 => Update::RemoveRef(ref_name(random, now)),
        9 => specs::add_schema(schema(random, now)),
        10 => Update::SetCurrentSchema(known_or(random, &schema_ids(m), -1)),
        11 => Update::RemoveSchemas(schema_removal(random, m)),
        12 => Update::AddSortOrder(order(random, now)),
        13 => Update::SetDefaultSortOrder(known_or(random, &order_ids(m), -1)),
        14 => Update::SetStatistics(statistics_file(random, now, &m.statistics)),
        15 => Update::RemoveStatistics(statistics_id(random, now, &m.statistics, 65)),
        16 => Update::SetPartitionStatistics(statistics_file(random, now, &m.partition_statistics)),
        _ => {
            let id = statistics_id(random, now, &m.partition_statistics, 65);
            Update::RemovePartitionStatistics(id)
        }
    }
}

/// At times the held location again, behind more slashes.
fn location(random: &mut Random, now: &Now) -> Bytes {
    let mut again = now.metadata.location.clone();
    again.resize(capacity::LOCATION.min(again.len() + random.below(3)), b'/');
    match random.percent(30) {
        true => again,
        false => start::location(random),
    }
}

/// A snapshot that passes the checks, most times: a free id, a number above the last, a time in the window, rows from next row id on.
pub fn snapshot(random: &mut Random, now: &Now) -> Snapshot {
    let m = &now.metadata;
    let repeats_number = random.percent(20);
    let sequence = match repeats_number {
        true => random.one_of(&[0, m.last_sequence_number / 2, m.last_sequence_number]),
        false => m
            .last_sequence_number
            .saturating_add(random.one_of(&[1, 1, 1, 4])),
    };
    let parent = match random.percent(if repeats_number { 5 } else { 60 }) {
        true => random.any_of(&snapshot_ids(m)).or(Some(77)),
        false => None,
    };
    Snapshot {
        id: free_id(random, now),
        parent: Flagged::of(parent),
        sequence,
        timestamp_ms: time(random, now),
        rows: Flagged::of(rows(random, now)),
    }
}

fn free_id(random: &mut Random, now: &Now) -> i64 {
    let held = snapshot_ids(&now.metadata);
    let mut free = now.world.snapshot_ids.clone();
    free.retain(|id| !held.contains(id));
    let next = held.last().map_or(0, |last| last.saturating_add(1));
    random.any_of(&free).unwrap_or(next)
}

/// The time that check 8 looks back from.
pub fn last_update(now: &Now) -> i64 {
    let own = now.own_last_updated_ms.unwrap_or(0);
    own.max(now.metadata.last_updated_ms)
}

/// Mostly a time that passes 7 and 8, often by a millisecond.
fn time(random: &mut Random, now: &Now) -> i64 {
    let log_end = now.metadata.snapshot_log.last();
    let last = log_end.map_or(i64::MIN, |entry| entry.timestamp_ms);
    let last = last.max(last_update(now));
    let tolerance = now.world.terms.tolerance;
    let passing = [-tolerance, 1 - tolerance, -1, 0, 0, 1, 1000, tolerance + 1];
    match random.percent(if now.world.far { 60 } else { 95 }) {
        true => last.saturating_add(random.one_of(&passing)),
        false => now.world.any_time(random),
    }
}

/// From the next row id on, or after a gap; mostly few rows, at times up to the last row id.
fn rows(random: &mut Random, now: &Now) -> Option<(u64, u64)> {
    let m = &now.metadata;
    let room = u64::MAX - m.next_row_id;
    let gap = match now.world.gaps {
        true => random.one_of(&[0, 0, 0, 1, 1, 100, room / 2, room.saturating_sub(7)]),
        false => 0,
    };
    let first = m.next_row_id.saturating_add(gap);
    let room = u64::MAX - first;
    let added = random.one_of(&[0, 1, 1, 5, 100, room]).min(room);
    let added = if random.percent(90) {
        added.min(100)
    } else {
        added
    };
    (m.version == 3 || random.percent(40)).then_some((first, added))
}

/// A name of the pool, or of a held ref; often `main`.
fn ref_name(random: &mut Random, now: &Now) -> Bytes {
    let held: Vec<Bytes> = now.metadata.refs.iter().map(|r| r.name.clone()).collect();
    match random.below(10) {
        0..4 => b"main".to_vec(),
        4..7 => random.one_of(&now.world.ref_names),
        _ => random.any_of(&held).unwrap_or_default(),
    }
}

fn set_ref(random: &mut Random, now: &Now) -> Update {
    let m = &now.metadata;
    if let Some(again) = random.any_of(&m.refs).filter(|_| random.percent(12)) {
        return Update::SetRef(again);
    }
    let name = ref_name(random, now);
    let snapshot_id = random.any_of(&snapshot_ids(m)).unwrap_or(0);
    Update::SetRef(start::reference(random, name, snapshot_id))
}

/// Mostly spares the current snapshot; names some twice and some that are not held.
fn snapshot_removal(random: &mut Random, now: &Now) -> Vec<i64> {
    let m = &now.metadata;
    let mut ids = snapshot_ids(m);
    ids.extend(&now.world.snapshot_ids);
    if random.percent(85) {
        ids.retain(|id| Some(*id) != m.current_snapshot_id.get());
    }
    let count = random.one_of(&[0, 1, 1, 1, 2, 2, 3, 5, capacity::REMOVAL_IDS]);
    let mut ids = random.some_of(count, &ids);
    random.shuffle(&mut ids);
    ids
}

/// Half of the time fields that a held schema has already.
fn schema(random: &mut Random, now: &Now) -> Schema {
    let fields = match random.any_of(&now.metadata.schemas) {
        Some(twin) if random.percent(50) => twin.fields,
        _ => {
            let ids = start::field_ids(random, now.world);
            specs::offered_fields(random, now.world, ids)
        }
    };
    let id = random.one_of(&[0, 0, 1, 7, i32::MAX]);
    Schema { id, fields }
}

/// Mostly spares the current schema; at times no id, at times one that is not held.
fn schema_removal(random: &mut Random, m: &Metadata) -> Vec<i32> {
    let mut ids = schema_ids(m);
    ids.extend([3, 3, 40]);
    if random.percent(95) {
        ids.retain(|id| *id != m.current_schema_id);
    }
    let count = random.one_of(&[0, 1, 1, 2, 3, capacity::REMOVAL_IDS]);
    let mut ids = random.some_of(count, &ids);
    random.shuffle(&mut ids);
    ids
}

/// No fields, the fields of a held order, or fields of the current schema.
fn order(random: &mut Random, now: &Now) -> Order {
    let sources = current_fields(&now.metadata);
    let fields = match random.below(10) {
        0..2 => Vec::new(),
        2..5 => random.one_of(&now.metadata.orders).fields,
        _ if sources.is_empty() => Vec::new(),
        _ => start::sort_fields(random, &sources),
    };
    let id = random.one_of(&[0, 0, 1, 7, i64::MAX]);
    Order { id, fields }
}

/// At times a file of the table again, often another of the same snapshot.
fn statistics_file(random: &mut Random, now: &Now, files: &[StatisticsFile]) -> StatisticsFile {
    if let Some(again) = random.any_of(files).filter(|_| random.percent(15)) {
        return again;
    }
    let snapshot_id = statistics_id(random, now, files, 25);
    start::statistics_file(random, snapshot_id)
}

/// So many times in a hundred a snapshot that has a file in the table; else one that is held, or one of the pool.
fn statistics_id(random: &mut Random, now: &Now, files: &[StatisticsFile], share: usize) -> i64 {
    let ids = match random.percent(share) {
        true => files.iter().map(|f| f.snapshot_id).collect(),
        false if random.percent(30) => snapshot_ids(&now.metadata),
        false => now.world.snapshot_ids.clone(),
    };
    random.any_of(&ids).unwrap_or(0)
}

/// Half of the time `last added`, else one of the ids.
pub fn known_or<T: Clone>(random: &mut Random, ids: &[T], last_added: T) -> T {
    match random.percent(50) {
        true => last_added,
        false => random.one_of(ids),
    }
}

pub fn current_schema(m: &Metadata) -> &Schema {
    let current = m.schemas.iter().find(|s| s.id == m.current_schema_id);
    current.expect("the current schema is held")
}

pub fn current_fields(m: &Metadata) -> Vec<i32> {
    current_schema(m).field_ids()
}

pub fn default_sort_fields(m: &Metadata) -> Vec<SortField> {
    let default = m.orders.iter().find(|o| o.id == m.default_order_id);
    default.map_or(Vec::new(), |o| o.fields.clone())
}

pub fn snapshot_ids(m: &Metadata) -> Vec<i64> {
    m.snapshots.iter().map(|s| s.id).collect()
}

pub fn schema_ids(m: &Metadata) -> Vec<i32> {
    m.schemas.iter().map(|s| s.id).collect()
}

pub fn order_ids(m: &Metadata) -> Vec<i64> {
    m.orders.iter().map(|o| o.id).collect()
}
