//! Well-formed starting metadata.

use super::random::Random;
use super::world::World;
use crate::case::{
    BRANCH, Bytes, Flagged, Metadata, MetadataLogEntry, More, OFFICE_1, Order, Ref, Schema,
    Snapshot, SnapshotLogEntry, SortField, StatisticsFile, TAG, capacity,
};
use crate::generate::{offices, specs};

/// The start of a run that is given this: a table that is not given is what it is without.
pub fn start(random: &mut Random, world: &World, more: &More) -> Metadata {
    let mut snapshots = snapshots(random, world);
    if world.offices {
        offices::link(random, &mut snapshots);
    }
    let held: Vec<i64> = snapshots.iter().map(|s| s.id).collect();
    let current = random.any_of(&held).filter(|_| random.percent(80));
    let schemas = schemas(random, world);
    let current_schema = random.one_of(&schemas);
    let orders = orders(random, world, &current_schema);
    let (specs, default_spec_id, last_partition_id) = specs::start(random, world, &current_schema);
    Metadata {
        version: random.one_of(&[1, 2, 2, 3, 3]),
        uuid: uuid(random),
        location: location(random),
        last_updated_ms: world.any_time(random),
        last_sequence_number: random.one_of(&[0, 1, 5, 5, 9, i64::MAX - 3]),
        next_row_id: next_row_id(random),
        last_column_id: random.one_of(&[0, 3, 8, -1, i32::MAX, i32::MIN]),
        current_snapshot_id: Flagged::of(current),
        refs: refs(random, world, more, &held, current),
        snapshot_log: snapshot_log(random, world, &held, current),
        metadata_log: metadata_log(random, world),
        snapshots,
        current_schema_id: current_schema.id,
        schemas,
        default_order_id: default_order(random, &orders, &current_schema),
        orders,
        statistics: statistics(random, world, more.statistics),
        partition_statistics: statistics(random, world, more.partition_statistics),
        specs,
        default_spec_id,
        last_partition_id,
    }
}

pub fn uuid(random: &mut Random) -> [u8; 16] {
    let mut uuid = [0; 16];
    uuid[random.below(2) * 15] = random.one_of(&[0, 1, 255]);
    uuid
}

pub fn location(random: &mut Random) -> Bytes {
    let length = random.one_of(&[0, 1, 3, 3, 3, capacity::LOCATION - 1, capacity::LOCATION]);
    let mut location: Bytes = (0..length).map(|_| random.one_of(b"a/")).collect();
    let slashes = random.below(4).min(length);
    location[length - slashes..].fill(b'/');
    if length > 0 && random.percent(10) {
        location[0] = random.one_of(&[0, 128, 255]);
    }
    location
}

fn next_row_id(random: &mut Random) -> u64 {
    random.one_of(&[0, 0, 1, 10, 10, 100, u64::MAX - 10, u64::MAX])
}

/// The keys of a table of so many slots whose keys are snapshot ids.
fn snapshot_ids(random: &mut Random, world: &World, slots: usize) -> Vec<i64> {
    let mut ids = world.snapshot_ids.clone();
    ids.extend(100..100 + slots as i64);
    let count = random.fill(slots);
    // The pool comes first, so that few ids are mostly those that updates name.
    ids.truncate(count.max(world.snapshot_ids.len()));
    let mut ids = random.some_of(count, &ids);
    ids.sort_unstable();
    ids
}

fn snapshots(random: &mut Random, world: &World) -> Vec<Snapshot> {
    let ids = snapshot_ids(random, world, capacity::SNAPSHOTS);
    let snapshot = |id: &i64| Snapshot {
        id: *id,
        parent: Flagged::of(random.percent(60).then(|| parent(random, world, &ids))),
        sequence: random.one_of(&[0, 1, 3, 5, i64::MAX]),
        timestamp_ms: world.any_time(random),
        rows: Flagged::of(random.percent(50).then(|| rows(random))),
    };
    ids.iter().map(snapshot).collect()
}

fn parent(random: &mut Random, world: &World, held: &[i64]) -> i64 {
    match random.percent(80) {
        true => random.one_of(held),
        false => random.one_of(&world.snapshot_ids),
    }
}

fn rows(random: &mut Random) -> (u64, u64) {
    let ends = [0, 1, 5, 100, u64::MAX];
    (random.one_of(&ends), random.one_of(&ends))
}

/// Retention numbers, where present, are at least 1; a tag has only a ref age.
pub fn reference(random: &mut Random, name: Bytes, snapshot_id: i64) -> Ref {
    let is_tag = random.percent(25);
    let age = |random: &mut Random| {
        random
            .percent(25)
            .then(|| random.one_of(&[1, 60_000, i64::MAX]))
    };
    let min = random.percent(25).then(|| random.one_of(&[1, 2, i32::MAX]));
    Ref {
        name,
        snapshot_id,
        kind: if is_tag { TAG } else { BRANCH },
        min_snapshots: Flagged::of(min.filter(|_| !is_tag)),
        max_snapshot_age_ms: Flagged::of(age(random).filter(|_| !is_tag)),
        max_ref_age_ms: Flagged::of(age(random)),
        owner: OFFICE_1,
    }
}

fn refs(
    random: &mut Random,
    world: &World,
    more: &More,
    held: &[i64],
    current: Option<i64>,
) -> Vec<Ref> {
    if held.is_empty() {
        return Vec::new();
    }
    let mut names = world.ref_names.clone();
    names.retain(|name| name != b"main");
    names.extend((0..capacity::REFS).map(|i| format!("r{i}").into_bytes()));
    let others = random
        .fill(capacity::REFS)
        .min(capacity::REFS - current.is_some() as usize);
    names.truncate(others.max(3));
    let mut refs: Vec<Ref> = random
        .some_of(others, &names)
        .into_iter()
        .map(|name| {
            let snapshot_id = random.one_of(held);
            reference(random, name, snapshot_id)
        })
        .collect();
    refs.extend(current.map(|id| reference(random, b"main".to_vec(), id)));
    refs.sort_by(|a, b| a.name.cmp(&b.name));
    if more.owners {
        offices::give_owners(random, &mut refs);
    }
    refs
}

/// History that mostly ends at the current snapshot and may name snapshots no longer held.
fn snapshot_log(
    random: &mut Random,
    world: &World,
    held: &[i64],
    current: Option<i64>,
) -> Vec<SnapshotLogEntry> {
    let count = random.fill(capacity::SNAPSHOT_LOG);
    let mut log: Vec<SnapshotLogEntry> = (0..count)
        .map(|_| {
            let lost = random.percent(10) || held.is_empty();
            SnapshotLogEntry {
                snapshot_id: random.one_of(if lost { &world.snapshot_ids } else { held }),
                timestamp_ms: world.any_time(random),
            }
        })
        .collect();
    if let (Some(current), true) = (current, random.percent(90)) {
        log.truncate(capacity::SNAPSHOT_LOG - 1);
        log.push(SnapshotLogEntry {
            snapshot_id: current,
            timestamp_ms: world.any_time(random),
        });
    }
    log
}

/// Few entries, about the default limit, or about the capacity.
fn metadata_log(random: &mut Random, world: &World) -> Vec<MetadataLogEntry> {
    let count = match random.below(100) {
        0..75 => random.below(5),
        75..85 => 98 + random.below(4),
        85..90 => random.below(capacity::METADATA_LOG),
        _ => capacity::METADATA_LOG - random.below(3),
    };
    let entry = |i: usize| MetadataLogEntry {
        file: file_name(random, i),
        timestamp_ms: world.any_time(random),
    };
    (0..count).map(entry).collect()
}

pub fn file_name(random: &mut Random, number: usize) -> Bytes {
    match random.percent(96) {
        true => format!("f{number}").into_bytes(),
        false => vec![b'n'; random.one_of(&[0, capacity::FILE_NAME])],
    }
}

/// Fills the metadata log to its capacity.
pub fn fill_metadata_log(m: &mut Metadata) {
    let entry = MetadataLogEntry {
        file: b"f".to_vec(),
        timestamp_ms: 0,
    };
    m.metadata_log.resize(capacity::METADATA_LOG, entry);
}

/// Ids ascending with gaps, at times up to the largest; at times two schemas have equal fields.
fn schemas(random: &mut Random, world: &World) -> Vec<Schema> {
    let mut schemas: Vec<Schema> = Vec::new();
    let mut id = random.below(3) as i32;
    for _ in 0..random.fill(capacity::SCHEMAS).max(1) {
        let fields = match random.any_of(&schemas) {
            Some(twin) if random.percent(25) => twin.fields,
            _ => {
                let ids = field_ids(random, world);
                specs::start_fields(random, world, ids)
            }
        };
        schemas.push(Schema { id, fields });
        id += 1 + random.below(2) as i32;
    }
    if let (Some(last), true) = (schemas.last_mut(), random.percent(8)) {
        last.id = random.one_of(&[i32::MAX, i32::MAX, i32::MAX - 1]);
    }
    schemas
}

/// A list of fields: some of the pool in any order, at times none, at times as many as there are slots.
pub fn field_ids(random: &mut Random, world: &World) -> Vec<i32> {
    let full: Vec<i32> = (1..=capacity::SCHEMA_FIELDS as i32).collect();
    let mut fields = match random.below(100) {
        0..3 => return full,
        3..8 => return Vec::new(),
        8..60 => world.field_ids.clone(),
        _ => {
            let count = 1 + random.below(world.field_ids.len());
            random.some_of(count, &world.field_ids)
        }
    };
    if random.percent(20) {
        random.shuffle(&mut fields);
    }
    fields
}

/// One to eight fields over the given sources, of which there is at least one; a source may come twice.
pub fn sort_fields(random: &mut Random, sources: &[i32]) -> Vec<SortField> {
    let count = random.one_of(&[1, 1, 1, 2, 2, 3, capacity::ORDER_FIELDS]);
    let field = |_| SortField {
        source_id: random.one_of(sources),
        direction: random.below(2) as u8,
        nulls: random.below(2) as u8,
    };
    (0..count).map(field).collect()
}

/// Order 0 has no fields and is mostly there; the others mostly sort by fields of the current schema.
fn orders(random: &mut Random, world: &World, current: &Schema) -> Vec<Order> {
    let mut orders: Vec<Order> = Vec::new();
    if random.percent(85) {
        let (id, fields) = (0, Vec::new());
        orders.push(Order { id, fields });
    }
    let mut id = 1;
    let others = random
        .fill(capacity::ORDERS)
        .max(1 - orders.len())
        .min(capacity::ORDERS - orders.len());
    for _ in 0..others {
        let sources = match current.fields.is_empty() || random.percent(15) {
            true => world.field_ids.clone(),
            false => current.field_ids(),
        };
        let fields = match orders.iter().rfind(|o| o.id > 0) {
            Some(twin) if random.percent(25) => twin.fields.clone(),
            _ => sort_fields(random, &sources),
        };
        orders.push(Order { id, fields });
        id += 1 + random.below(2) as i64;
    }
    if let (Some(last), true) = (orders.last_mut().filter(|o| o.id > 0), random.percent(8)) {
        last.id = random.one_of(&[i64::MAX, i64::MAX, i64::MAX - 1]);
    }
    orders
}

/// Mostly one that the current schema bears, so that a close passes 20.
fn default_order(random: &mut Random, orders: &[Order], schema: &Schema) -> i64 {
    let ids = schema.field_ids();
    let known = |f: &SortField| ids.contains(&f.source_id);
    let borne: Vec<Order> = orders
        .iter()
        .filter(|o| o.fields.iter().all(known))
        .cloned()
        .collect();
    match random.any_of(&borne).filter(|_| random.percent(96)) {
        Some(order) => order.id,
        None => random.one_of(orders).id,
    }
}

/// Files of snapshots that are held, and of some that are not.
fn statistics(random: &mut Random, world: &World, given: bool) -> Vec<StatisticsFile> {
    if !given {
        return Vec::new();
    }
    let ids = snapshot_ids(random, world, capacity::STATISTICS);
    ids.into_iter()
        .map(|id| statistics_file(random, id))
        .collect()
}

/// Few paths and sizes, so that equal files meet again; at both ends of their bounds.
pub fn statistics_file(random: &mut Random, snapshot_id: i64) -> StatisticsFile {
    let path = match random.below(100) {
        0..90 => random.one_of(&["", "a", "a", "stats/a.puffin"]).into(),
        90..99 => vec![b's'; random.one_of(&[capacity::FILE_NAME - 1, capacity::FILE_NAME])],
        _ => vec![random.one_of(&[0, 128, 255])],
    };
    StatisticsFile {
        snapshot_id,
        path,
        size: random.one_of(&[0, 1, 1, 4096, i64::MAX]),
    }
}
