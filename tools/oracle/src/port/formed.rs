//! Well-formed records: reply 1 for a start, reply 3 for an update.

use super::formed_specs::{held_spec, schema, spec};
use crate::case::{
    BRANCH, Flagged, Metadata, OFFICE_1, OFFICE_2, Order, Ref, Run, Snapshot, SortField,
    StatisticsFile, TAG, Update, capacity,
};
use crate::spec::MAIN_BRANCH;

/// Reply 1 is not given.
pub fn start(run: &Run) -> bool {
    let file_fits = |file: &Vec<u8>| file.len() <= capacity::FILE_NAME;
    metadata(&run.metadata) && run.file.as_ref().is_none_or(file_fits)
}

/// The updates of a list count 1 each, a branch commit 2, by kind alone.
pub fn list_sum(updates: &[Update]) -> usize {
    let commits = updates.iter().filter(|u| u.kind() == 5).count();
    updates.len() + commits
}

/// Reply 3 is not given.
pub fn update(update: &Update) -> bool {
    match update {
        Update::AssignUuid(_) => true,
        Update::UpgradeFormatVersion(version) => (1..=3).contains(version),
        Update::SetLocation(location) => location.len() <= capacity::LOCATION,
        Update::AddSnapshot(s) => snapshot(s),
        Update::SetBranchSnapshot(name, s) => ref_name(name) && snapshot(s),
        Update::RemoveSnapshots(ids) => removal(ids),
        Update::SetRef(r) => reference(r),
        Update::RemoveRef(name) => ref_name(name),
        Update::AddSchema(s) | Update::AddNamedSchema(s) => schema(s),
        Update::SetCurrentSchema(id) => *id >= -1,
        Update::RemoveSchemas(ids) => removal(ids),
        Update::AddSortOrder(o) => order(o),
        Update::SetDefaultSortOrder(id) => *id >= -1,
        Update::SetStatistics(f) | Update::SetPartitionStatistics(f) => statistics_file(f),
        Update::RemoveStatistics(id) | Update::RemovePartitionStatistics(id) => *id >= 0,
        Update::AddPartitionSpec(s) => spec(s),
        Update::SetDefaultPartitionSpec(id) => *id >= -1,
        Update::RemovePartitionSpecs(ids) => removal(ids),
        Update::UnknownKind(_) => false,
    }
}

pub fn metadata(m: &Metadata) -> bool {
    (1..=3).contains(&m.version)
        && m.location.len() <= capacity::LOCATION
        && m.last_sequence_number >= 0
        && table(&m.snapshots, capacity::SNAPSHOTS, |s| &s.id, snapshot)
        && table(&m.refs, capacity::REFS, |r| &r.name, reference)
        && table(&m.schemas, capacity::SCHEMAS, |s| &s.id, schema)
        && table(&m.orders, capacity::ORDERS, |o| &o.id, held_order)
        && statistics(&m.statistics)
        && statistics(&m.partition_statistics)
        && table(&m.specs, capacity::SPECS, |s| &s.id, held_spec)
        && logs(m)
        && m.refs.iter().all(|r| holds_snapshot(m, r.snapshot_id))
        && m.refs.iter().all(owner)
        && current_is_main(m)
        && m.schemas.iter().any(|s| s.id == m.current_schema_id)
        && m.orders.iter().any(|o| o.id == m.default_order_id)
        && m.specs.iter().any(|s| s.id == m.default_spec_id)
        && m.last_partition_id >= 0
}

/// A keyed table: within its capacity, ascending with unequal keys, its records well formed.
fn table<R, K: Ord + ?Sized>(
    records: &[R],
    slots: usize,
    key: impl Fn(&R) -> &K,
    formed: impl Fn(&R) -> bool,
) -> bool {
    records.len() <= slots
        && records.is_sorted_by(|a, b| key(a) < key(b))
        && records.iter().all(formed)
}

/// Either table of statistics files.
pub fn statistics(files: &[StatisticsFile]) -> bool {
    table(
        files,
        capacity::STATISTICS,
        |f| &f.snapshot_id,
        statistics_file,
    )
}

/// Both logs keep history order, so only lengths, ids and names are bound.
fn logs(m: &Metadata) -> bool {
    m.snapshot_log.len() <= capacity::SNAPSHOT_LOG
        && m.snapshot_log.iter().all(|entry| entry.snapshot_id >= 0)
        && m.metadata_log.len() <= capacity::METADATA_LOG
        && m.metadata_log
            .iter()
            .all(|entry| entry.file.len() <= capacity::FILE_NAME)
}

fn holds_snapshot(m: &Metadata, id: i64) -> bool {
    m.snapshots.iter().any(|s| s.id == id)
}

/// A current snapshot is set exactly if ref `main` exists, and `main` names it.
fn current_is_main(m: &Metadata) -> bool {
    let main = m.refs.iter().find(|r| r.name == MAIN_BRANCH.as_bytes());
    blank(&m.current_snapshot_id)
        && m.current_snapshot_id.get() == main.map(|main| main.snapshot_id)
}

fn snapshot(s: &Snapshot) -> bool {
    s.id >= 0 && blank(&s.parent) && s.parent.value >= 0 && s.sequence >= 0 && blank(&s.rows)
}

fn reference(r: &Ref) -> bool {
    let branch_only = r.min_snapshots.present || r.max_snapshot_age_ms.present;
    ref_name(&r.name)
        && r.snapshot_id >= 0
        && (r.kind == BRANCH || r.kind == TAG && !branch_only)
        && retention(&r.min_snapshots)
        && retention(&r.max_snapshot_age_ms)
        && retention(&r.max_ref_age_ms)
}

/// An office's; `main` is office 1's.
pub fn owner(r: &Ref) -> bool {
    r.owner == OFFICE_1 || r.owner == OFFICE_2 && r.name != MAIN_BRANCH.as_bytes()
}

/// At least 1 where present.
fn retention<T: Default + PartialOrd + Copy>(number: &Flagged<T>) -> bool {
    blank(number) && number.get().is_none_or(|number| number > T::default())
}

fn ref_name(name: &[u8]) -> bool {
    name.len() <= capacity::REF_NAME
}

/// An offered order's own id need only be at least 0.
fn order(o: &Order) -> bool {
    let field = |f: &SortField| f.source_id >= 1 && f.direction <= 1 && f.nulls <= 1;
    o.id >= 0 && o.fields.len() <= capacity::ORDER_FIELDS && o.fields.iter().all(field)
}

/// A held order has no fields exactly if its id is 0.
fn held_order(o: &Order) -> bool {
    order(o) && o.fields.is_empty() == (o.id == 0)
}

/// The snapshot need not be held.
fn statistics_file(f: &StatisticsFile) -> bool {
    f.snapshot_id >= 0 && f.path.len() <= capacity::FILE_NAME && f.size >= 0
}

fn removal<T: Default + PartialOrd>(ids: &[T]) -> bool {
    ids.len() <= capacity::REMOVAL_IDS && ids.iter().all(|id| *id >= T::default())
}

/// The value behind a flag of 0 is 0.
pub fn blank<T: Default + PartialEq>(value: &Flagged<T>) -> bool {
    value.present || value.value == T::default()
}
