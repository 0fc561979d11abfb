//! Runs of two offices: owners and parents of a start, updates of what is the run's own, refusals that are provoked, and damage.

use super::propose::{self, Now, snapshot_ids};
use super::random::Random;
use super::{provoke, runs, specs, start, tolerances};
use crate::case::{
    BUCKET, Bytes, Case, Flagged, IDENTITY, Metadata, More, OFFICE_1, OFFICE_2, Order,
    PartitionField, Ref, Run, Snapshot, SortField, Spec, Update, capacity,
};

/// The numbers that a run of office 2 is refused with beside 35; 31 and 32 come of a start's specs.
const NUMBERS_OF_OFFICE_2: [u8; 17] = [1, 2, 3, 5, 6, 7, 8, 9, 10, 11, 12, 13, 19, 20, 23, 31, 32];

/// Updates of the own, by kind, each as often as it is to come.
const OWN: [(u8, usize); 9] = [
    (4, 12),
    (5, 14),
    (6, 14),
    (7, 14),
    (8, 6),
    (14, 2),
    (15, 1),
    (16, 2),
    (17, 1),
];

const KEPT: [u8; 12] = [1, 2, 3, 9, 10, 11, 12, 13, 18, 19, 20, 21];

/// Four in ten are to be refused with 35. Some have owners that are not well formed (1), some an office that is none (39), at times with
/// what stands before that.
pub fn given(random: &mut Random) -> Case {
    let about_specs = random.percent(15);
    let mut more = More {
        tolerance: random.percent(8).then(|| tolerances::tolerance(random)),
        statistics: random.percent(15),
        partition_statistics: random.percent(10),
        schemas: about_specs,
        specs: about_specs,
        office: Some(random.one_of(&[OFFICE_1, OFFICE_1, OFFICE_2, OFFICE_2, OFFICE_2])),
        owners: random.percent(95),
    };
    let mut run = match random.below(100) {
        0..40 => runs::refused(random, &more, 35),
        40..78 => runs::accepted(random, &more),
        78..93 => {
            let number = number(random, &more);
            runs::refused(random, &more, number)
        }
        _ => runs::as_it_comes(random, &more),
    };
    let fault = random.below(100);
    match fault {
        0..3 => damage_owner(random, &mut run.metadata.refs),
        3..6 => more.office = Some(random.one_of(&[0, 3, 255])),
        6 => {
            more.office = Some(random.one_of(&[0, 1, 2, 3]));
            more.tolerance = Some(tolerances::outside(random));
        }
        _ => (),
    }
    leave_out(random, &run, &mut more);
    Case::RunGiven(Box::new(run), more)
}

fn number(random: &mut Random, more: &More) -> u8 {
    let about_specs = |number: &u8| *number < 31 || more.has_specs();
    let mut numbers: Vec<u8> = match more.office {
        Some(OFFICE_2) => NUMBERS_OF_OFFICE_2.to_vec(),
        _ => (1..24).chain(31..35).collect(),
    };
    numbers.retain(about_specs);
    random.one_of(&numbers)
}

/// Leaves out at times what is the same without.
fn leave_out(random: &mut Random, run: &Run, more: &mut More) {
    if more.has_specs() {
        specs::leave_out(random, run, more);
    }
    if more.office == Some(OFFICE_1) && random.percent(20) {
        more.office = None;
    }
    let shared = run.metadata.refs.iter().any(|r| r.owner != OFFICE_1);
    more.owners = shared || more.owners && random.percent(50);
}

/// An owner that is no office's, or `main` of office 2.
fn damage_owner(random: &mut Random, refs: &mut [Ref]) {
    let place = random.below(refs.len().max(1));
    if let Some(main) = refs
        .iter_mut()
        .find(|r| is_main(r))
        .filter(|_| random.percent(40))
    {
        main.owner = random.one_of(&[OFFICE_2, OFFICE_2, 0, 3]);
    } else if let Some(any) = refs.get_mut(place) {
        any.owner = random.one_of(&[0, 3, 255]);
    }
}

fn is_main(r: &Ref) -> bool {
    r.name == b"main"
}

/// Mostly either office's by turns, at times all one's.
pub fn give_owners(random: &mut Random, refs: &mut [Ref]) {
    let share = random.one_of(&[50, 50, 50, 100]);
    for reference in refs.iter_mut().filter(|r| !is_main(r)) {
        let is_of_office_2 = random.percent(share);
        reference.owner = if is_of_office_2 { OFFICE_2 } else { OFFICE_1 };
    }
}

/// At times the snapshots are one line of parents, or a ring; the line may begin at one that is not held.
pub fn link(random: &mut Random, snapshots: &mut [Snapshot]) {
    let ids: Vec<i64> = snapshots.iter().map(|s| s.id).collect();
    let first = match random.below(10) {
        0..2 => None,
        2 => Some(random.one_of(&[77, 5])),
        3 => ids.last().copied(),
        _ => return,
    };
    let parents = [first].into_iter().chain(ids.iter().copied().map(Some));
    for (snapshot, parent) in snapshots.iter_mut().zip(parents) {
        snapshot.parent = Flagged::of(parent);
    }
}

/// An update that is mostly not the other's.
pub fn propose(random: &mut Random, now: &Now) -> Update {
    match random.weighted(&OWN) {
        5 => Update::SetBranchSnapshot(own_name(random, now), propose::snapshot(random, now)),
        6 => Update::RemoveSnapshots(own_removal(random, now)),
        7 => {
            let name = own_name(random, now);
            let snapshot_id = random.any_of(&snapshot_ids(&now.metadata)).unwrap_or(0);
            Update::SetRef(start::reference(random, name, snapshot_id))
        }
        8 => Update::RemoveRef(own_name(random, now)),
        kind => propose::of_kind(random, now, kind),
    }
}

/// A name, held or not, that the office may use.
fn own_name(random: &mut Random, now: &Now) -> Bytes {
    let mut names = now.world.ref_names.clone();
    names.extend(now.metadata.refs.iter().map(|r| r.name.clone()));
    names.retain(|name| now.book.refuses(&Update::RemoveRef(name.clone())).is_none());
    random.any_of(&names).unwrap_or(b"own".to_vec())
}

/// Snapshots that nobody else needs, at times with some that are not held.
fn own_removal(random: &mut Random, now: &Now) -> Vec<i64> {
    let mut ids = snapshot_ids(&now.metadata);
    if random.percent(30) {
        ids.extend(&now.world.snapshot_ids);
    }
    ids.retain(|id| !now.book.needed(*id).is_so());
    let count = random.one_of(&[1, 1, 1, 2, 2, 3, capacity::REMOVAL_IDS]);
    let mut ids = random.some_of(count, &ids);
    random.shuffle(&mut ids);
    ids
}

/// What a start needs for this number, 35 or one of a close of office 2, and would seldom have by itself.
pub fn prepare(random: &mut Random, m: &mut Metadata, number: u8) {
    match number {
        20 => unsortable(m),
        31 => clashing(random, m),
        32 => misfit(m),
        35 if random.percent(30) => {
            // What a ref reaches is mostly in the log too.
            let current = m.current_snapshot_id.get();
            m.snapshot_log
                .retain(|entry| Some(entry.snapshot_id) == current);
        }
        _ => (),
    }
}

/// The default order sorts by a field that no schema has.
fn unsortable(m: &mut Metadata) {
    let field = SortField {
        source_id: 999,
        direction: 0,
        nulls: 0,
    };
    let fields = vec![field];
    match m.orders.last_mut() {
        Some(last) if last.id > 0 => last.fields = fields,
        _ => m.orders.push(Order { id: 1, fields }),
    }
    m.default_order_id = m.orders.last().map_or(0, |o| o.id);
}

/// A field of the default spec has a name of the current schema.
fn clashing(random: &mut Random, m: &mut Metadata) {
    let Some(named) = random.any_of(&propose::current_schema(m).fields) else {
        return;
    };
    let field = PartitionField {
        source_id: named.id,
        field_id: Flagged::of(Some(5000)),
        name: named.name,
        transform: BUCKET,
        number: 77,
    };
    default_with(m, field);
}

/// A field of the default spec has a source that no schema has.
fn misfit(m: &mut Metadata) {
    let field = PartitionField {
        source_id: 999,
        field_id: Flagged::of(Some(5000)),
        name: b"misfit".to_vec(),
        transform: IDENTITY,
        number: 0,
    };
    default_with(m, field);
}

/// The field in the place of the default spec's last one, unless its name is empty or is there already.
fn default_with(m: &mut Metadata, field: PartitionField) {
    let default = m.specs.iter_mut().find(|s| s.id == m.default_spec_id);
    let Some(Spec { fields, .. }) = default else {
        return;
    };
    fields.pop();
    if !field.name.is_empty() && fields.iter().all(|f| f.name != field.name) {
        fields.push(field);
    }
}

/// What may stand before an update that is the other's: at times a snapshot that is then reached.
pub fn lead(random: &mut Random, now: &Now) -> Vec<Update> {
    let missing: Vec<i64> = now.book.missing_parents().into_iter().collect();
    match random.any_of(&missing).filter(|_| random.percent(25)) {
        Some(id) => vec![Update::AddSnapshot(Snapshot {
            id,
            ..propose::snapshot(random, now)
        })],
        None => Vec::new(),
    }
}

/// An update that may be the other's.
pub fn update(random: &mut Random, now: &Now) -> Option<Update> {
    match (now.world.terms.office, random.below(100)) {
        (OFFICE_2, 0..30) => Some(kept(random, now)),
        (OFFICE_2, 30..45) => Some(naming(random, now, b"main".to_vec())),
        (_, 0..65) => {
            let names: Vec<Bytes> = now.book.others().map(|r| r.name.clone()).collect();
            let name = random.any_of(&names)?;
            Some(naming(random, now, name))
        }
        _ => removal(random, now),
    }
}

/// Of a kind that is kept for office 1, at times one that would change nothing or be refused otherwise.
fn kept(random: &mut Random, now: &Now) -> Update {
    if random.percent(20) {
        let number = random.one_of(&[4, 14, 15, 16, 17, 18]);
        if let Some(refused) = provoke::plain_update(random, now, number) {
            return refused;
        }
    }
    let m = &now.metadata;
    let unchanged = random.percent(30);
    match random.one_of(&KEPT) {
        1 if unchanged => Update::AssignUuid(m.uuid),
        3 if unchanged => Update::SetLocation(m.location.clone()),
        10 if unchanged => Update::SetCurrentSchema(m.current_schema_id),
        11 if unchanged => Update::RemoveSchemas(Vec::new()),
        13 if unchanged => Update::SetDefaultSortOrder(m.default_order_id),
        18 => Update::AddPartitionSpec(random.one_of(&m.specs)),
        19 => {
            let id = random.one_of(&[m.default_spec_id, -1, 40]);
            Update::SetDefaultPartitionSpec(id)
        }
        20 => {
            let ids = random.one_of(&[vec![], vec![m.default_spec_id], vec![7, 40]]);
            Update::RemovePartitionSpecs(ids)
        }
        21 => Update::AddNamedSchema(random.one_of(&m.schemas)),
        kind => propose::of_kind(random, now, kind),
    }
}

/// An update of this ref, at times one that would change nothing or be refused otherwise.
fn naming(random: &mut Random, now: &Now, name: Bytes) -> Update {
    let m = &now.metadata;
    let held = m.refs.iter().find(|r| r.name == name);
    match (random.below(3), held.filter(|_| random.percent(25))) {
        (0, _) => {
            let mut snapshot = propose::snapshot(random, now);
            if random.percent(30) {
                let number = 5 + random.below(7) as u8;
                provoke::spoil(random, now, number, &mut snapshot);
            }
            Update::SetBranchSnapshot(name, snapshot)
        }
        (1, Some(held)) => Update::SetRef(held.clone()),
        (1, None) => {
            let mut ids = snapshot_ids(m);
            ids.push(50);
            let snapshot_id = random.one_of(&ids);
            Update::SetRef(start::reference(random, name, snapshot_id))
        }
        _ => Update::RemoveRef(name),
    }
}

/// Of a snapshot that is needed: by a ref that names it, by one that reaches it, or by the log, each alone as often as it can be. At times
/// among others.
fn removal(random: &mut Random, now: &Now) -> Option<Update> {
    let held = snapshot_ids(&now.metadata);
    let needed = |id: &&i64| now.book.needed(**id).is_so();
    let so = |named: bool, reached: bool, logged: bool| -> Vec<i64> {
        let wanted = |id: &&i64| {
            let n = now.book.needed(**id);
            (n.named, n.reached, n.logged) == (named, reached, logged)
        };
        held.iter().filter(wanted).copied().collect()
    };
    let alone = match random.below(4) {
        0 => so(true, false, false),
        1 => so(false, true, false),
        2 => so(false, false, true),
        _ => Vec::new(),
    };
    let any: Vec<i64> = held.iter().filter(needed).copied().collect();
    let mut ids = vec![random.any_of(&alone).or(random.any_of(&any))?];
    if random.percent(40) {
        let mut others = held.clone();
        others.extend(&now.world.snapshot_ids);
        let count = random.one_of(&[1, 2, 5]);
        ids.extend(random.some_of(count, &others));
        random.shuffle(&mut ids);
    }
    Some(Update::RemoveSnapshots(ids))
}
