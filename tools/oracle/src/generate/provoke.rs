//! Updates that the metadata as it stands refuses with a given number.

use super::propose::{self, Now};
use super::random::Random;
use super::{damage, offices, specs, start};
use crate::case::{
    Flagged, Metadata, More, OFFICE_2, Order, Run, Schema, Snapshot, StatisticsFile, TAG, Update,
    capacity,
};

/// What a run is to be refused with.
#[derive(Clone, Copy)]
pub struct Aim {
    pub number: u8,
    /// By an update of partition specs or of a named schema.
    pub of_specs: bool,
    /// For what is the other's (35), or by a close of office 2, which no update of its own brings about.
    pub of_offices: bool,
}

impl Aim {
    /// In a run about specs a number that other updates are refused with too is aimed at either way.
    pub fn new(random: &mut Random, more: &More, number: u8) -> Self {
        let either = more.has_specs() && [14, 15, 18, 19].contains(&number);
        let of_specs = (31..35).contains(&number) || either && random.percent(60);
        let closes = more.office == Some(OFFICE_2) && [20, 31, 32].contains(&number);
        Self {
            number,
            of_specs,
            of_offices: number == 35 || closes,
        }
    }
}

/// What a start needs for this number and would seldom have by itself.
pub fn prepare(random: &mut Random, run: &mut Run, aim: Aim) {
    let m = &mut run.metadata;
    match aim.number {
        number if aim.of_offices => offices::prepare(random, m, number),
        number if aim.of_specs => specs::prepare(random, m, number),
        18 if random.percent(50) => {
            let last = m.schemas.last_mut().expect("a start has a schema");
            if last.id != m.current_schema_id {
                last.id = i32::MAX;
            }
        }
        18 => {
            let last = m.orders.last_mut().expect("a start has an order");
            if last.id != m.default_order_id && last.id > 0 {
                last.id = i64::MAX;
            }
        }
        23 => overfill_metadata_log(random, run),
        // 20 to 22 stand before 23.
        20..=22 if random.percent(20) => overfill_metadata_log(random, run),
        _ => (),
    }
}

fn overfill_metadata_log(random: &mut Random, run: &mut Run) {
    let limits = ["129", "+129", "00200", "18446744073709551615"];
    start::fill_metadata_log(&mut run.metadata);
    run.file = Some(start::file_name(random, 128));
    run.limit = Some(random.one_of(&limits).into());
}

/// What may stand before the refused update.
pub fn lead(random: &mut Random, now: &Now, aim: Aim) -> Vec<Update> {
    match (aim.number, &now.world.specs) {
        (35, _) => offices::lead(random, now),
        (number, Some(pools)) if aim.of_specs => specs::lead(random, now, pools, number),
        (number, _) => lead_plainly(random, now, number),
    }
}

fn lead_plainly(random: &mut Random, now: &Now, number: u8) -> Vec<Update> {
    match number {
        9 if now.metadata.version == 3 && random.percent(40) => vec![gap(random, now)],
        19 if random.percent(10) => statistics_files(random),
        _ => Vec::new(),
    }
}

/// A gap in the row ids, so that only the next row id after it is above what an update refused with 9 starts from.
fn gap(random: &mut Random, now: &Now) -> Update {
    let gap = random.one_of(&[1, 1, 100, u64::MAX / 2]);
    let first = now.metadata.next_row_id.saturating_add(gap);
    let added = random.one_of(&[0, 1, 50]).min(u64::MAX - first);
    Update::AddSnapshot(Snapshot {
        rows: Flagged::of(Some((first, added))),
        ..propose::snapshot(random, now)
    })
}

/// As many files as a table of them has slots, so that one that was empty is full.
fn statistics_files(random: &mut Random) -> Vec<Update> {
    let set = set_statistics(random);
    let ids = 200..200 + capacity::STATISTICS as i64;
    ids.map(|id| set(start::statistics_file(random, id)))
        .collect()
}

fn set_statistics(random: &mut Random) -> fn(StatisticsFile) -> Update {
    match random.percent(50) {
        true => Update::SetStatistics,
        false => Update::SetPartitionStatistics,
    }
}

/// An update that may be refused with this number; nothing where the metadata forbids it from the outset.
pub fn update(random: &mut Random, now: &Now, aim: Aim) -> Option<Update> {
    match (aim.number, &now.world.specs) {
        (35, _) => offices::update(random, now),
        (number, Some(pools)) if aim.of_specs => specs::update(random, now, pools, number),
        (number, _) => plain_update(random, now, number),
    }
}

/// The number is 3 to 19.
pub fn plain_update(random: &mut Random, now: &Now, number: u8) -> Option<Update> {
    let m = &now.metadata;
    match number {
        3 => {
            let mut update = propose::propose(random, now);
            damage::update(random, &mut update);
            Some(update)
        }
        4 => (m.version > 1).then(|| Update::UpgradeFormatVersion(m.version - 1)),
        5..=11 => Some(add_or_commit(random, now, number)),
        12 => {
            let name = random.one_of(&now.world.ref_names);
            let snapshot_id = random.one_of(&[0, 1, 2, 3, 50, i64::MAX]);
            Some(Update::SetRef(start::reference(random, name, snapshot_id)))
        }
        13 => {
            let tag = m.refs.iter().find(|r| r.kind == TAG)?;
            let snapshot = propose::snapshot(random, now);
            Some(Update::SetBranchSnapshot(tag.name.clone(), snapshot))
        }
        14 => Some(set(random, -1)),
        15 => {
            let id = random.one_of(&[-1, 0, 40, i32::MAX]);
            Some(set(random, id))
        }
        16 => Some(Update::RemoveSchemas(with_current(random, m))),
        17 => Some(new_order(random, m)),
        18 => Some(new_schema_or_order(random, m)),
        _ => Some(growth(random, now)),
    }
}

/// Updates after which the close may be refused with this number, 20 to 23, 31 or 32.
pub fn closing(random: &mut Random, now: &Now, number: u8) -> Option<Vec<Update>> {
    let m = &now.metadata;
    let current = m.current_snapshot_id.get();
    match number {
        // What is refused is in the start.
        _ if now.world.terms.office == OFFICE_2 => Some(Vec::new()),
        20 => {
            let sorted_by = propose::default_sort_fields(m).first()?.source_id;
            let mut fields = propose::current_schema(m).fields.clone();
            fields.retain(|f| f.id != sorted_by);
            let schema = specs::add_schema(Schema { id: 0, fields });
            let mut causes = vec![schema, Update::SetCurrentSchema(-1)];
            if let (Some(current), true) = (current, random.percent(30)) {
                causes.push(Update::RemoveSnapshots(vec![current]));
            }
            Some(causes)
        }
        21 => Some(vec![Update::RemoveSnapshots(vec![current?])]),
        22 => {
            let again = Snapshot {
                id: current?,
                ..propose::snapshot(random, now)
            };
            Some(vec![
                Update::RemoveSnapshots(vec![current?]),
                Update::AddSnapshot(again),
            ])
        }
        31 | 32 => specs::closing(random, now, number),
        _ => Some(Vec::new()),
    }
}

/// A snapshot at fault, at times twice, added by itself or by a branch commit.
fn add_or_commit(random: &mut Random, now: &Now, number: u8) -> Update {
    let mut snapshot = propose::snapshot(random, now);
    if random.percent(30) {
        let other = 5 + random.below(7) as u8;
        spoil(random, now, other, &mut snapshot);
    }
    spoil(random, now, number, &mut snapshot);
    match random.percent(60) {
        true => Update::AddSnapshot(snapshot),
        false => Update::SetBranchSnapshot(b"main".to_vec(), snapshot),
    }
}

pub fn spoil(random: &mut Random, now: &Now, number: u8, s: &mut Snapshot) {
    let m = &now.metadata;
    let early = now.world.terms.tolerance + random.one_of(&[1, 1, 2, 940_000]);
    let before = |last: i64| last.saturating_sub(early);
    let next = m.next_row_id;
    match number {
        5 => s.id = random.any_of(&propose::snapshot_ids(m)).unwrap_or(s.id),
        6 => {
            s.sequence = random.one_of(&[m.last_sequence_number, 0]);
            s.parent = Flagged::of(Some(random.one_of(&[0, 5, s.id])));
        }
        7 => s.timestamp_ms = before(m.snapshot_log.last().map_or(0, |e| e.timestamp_ms)),
        8 => s.timestamp_ms = before(propose::last_update(now)),
        9 => s.rows = Flagged::of(Some((random.one_of(&[next.saturating_sub(1), 0]), 1))),
        10 => s.rows = Flagged::of(None),
        _ => {
            let firsts = [next, next.saturating_add(1), next / 2 + (1 << 63), u64::MAX];
            let first = random.one_of(&firsts);
            let over = (u64::MAX - first).saturating_add(random.one_of(&[1, 1, 2, u64::MAX]));
            s.rows = Flagged::of(Some((first, over)));
        }
    }
}

fn set(random: &mut Random, id: i32) -> Update {
    match random.percent(50) {
        true => Update::SetCurrentSchema(id),
        false => Update::SetDefaultSortOrder(i64::from(id)),
    }
}

fn with_current(random: &mut Random, m: &Metadata) -> Vec<i32> {
    let mut ids = random.some_of(3, &propose::schema_ids(m));
    ids.push(m.current_schema_id);
    random.shuffle(&mut ids);
    ids
}

/// Over fields of the current schema and one that it does not have.
fn new_order(random: &mut Random, m: &Metadata) -> Update {
    let mut sources = propose::current_fields(m);
    sources.push(random.one_of(&[999, i32::MAX - 1]));
    let fields = start::sort_fields(random, &sources);
    Update::AddSortOrder(Order { id: 3, fields })
}

/// Fields that no held schema or order is likely to have.
fn new_schema_or_order(random: &mut Random, m: &Metadata) -> Update {
    match random.percent(50) {
        true => {
            let field = 500 + random.below(99) as i32;
            Update::AddSchema(Schema::unnamed(0, [field]))
        }
        false => new_order(random, m),
    }
}

/// An update that grows a table: with a new snapshot, a new name, an entry of history, a new schema, a new order or a file of a snapshot that
/// has none.
fn growth(random: &mut Random, now: &Now) -> Update {
    let m = &now.metadata;
    let new_name = format!("new{}", random.below(9)).into_bytes();
    let held = random.any_of(&propose::snapshot_ids(m)).unwrap_or(0);
    match random.below(7) {
        0 => propose::of_kind(random, now, 4),
        1 => Update::SetBranchSnapshot(new_name, propose::snapshot(random, now)),
        2 => Update::SetRef(start::reference(random, new_name, held)),
        3 => Update::SetRef(start::reference(random, b"main".to_vec(), held)),
        4 => new_schema_or_order(random, m),
        _ => set_statistics(random)(start::statistics_file(random, 500)),
    }
}
