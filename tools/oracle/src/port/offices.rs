//! Request (xi) of document 02: two offices share the metadata. The published code knows none, so this is our reading of the request, in plain
//! Rust and apart from the builder: whose an update is (35), whose the refs of an answer are, and the close of office 2.

use std::collections::{BTreeMap, BTreeSet};

use super::reply::Reply;
use crate::case::{BRANCH, Flagged, Metadata, OFFICE_2, Ref, Run, Snapshot, Update};
use crate::spec::MAIN_BRANCH;

/// Why an update is refused with 35.
#[derive(Debug, Clone, Copy, PartialEq, Eq, PartialOrd, Ord)]
pub enum Cause {
    /// Office 2: this kind of update is kept for office 1.
    Kept(u8),
    /// Office 2: an update of this kind names `main`, which is held or not.
    Main { kind: u8, held: bool },
    /// An update of this kind, by this office, names a ref of the other.
    Ref { kind: u8, office: u8 },
    /// This office removes a held snapshot that a ref of the other names, that one reaches by parents and none names, or, for office 2,
    /// that the snapshot log names.
    Removal {
        office: u8,
        named: bool,
        reached: bool,
        logged: bool,
    },
}

impl Cause {
    pub fn describe(self) -> String {
        match self {
            Self::Kept(kind) => format!("kind {kind} by office 2"),
            Self::Main { kind, held: true } => format!("main named by kind {kind} of office 2"),
            Self::Main { kind, held: false } => {
                format!("main, not held, named by kind {kind} of office 2")
            }
            Self::Ref { kind, office } => {
                format!("the other's ref named by kind {kind} of office {office}")
            }
            Self::Removal {
                office,
                named,
                reached,
                logged,
            } => {
                let parts = [(named, "named"), (reached, "reached"), (logged, "logged")];
                let parts = parts.into_iter().filter(|(is_so, _)| *is_so);
                let parts: Vec<&str> = parts.map(|(_, part)| part).collect();
                format!(
                    "a snapshot removed by office {office}: {}",
                    parts.join(" and ")
                )
            }
        }
    }
}

/// What 35 is asked of: the state that the updates so far, all accepted, have led to.
#[derive(Debug, Clone)]
pub struct Book {
    office: u8,
    refs: Vec<BookRef>,
    /// The held snapshots, each with its parent.
    parents: BTreeMap<i64, Option<i64>>,
    /// The ids that the snapshot log of the start names. Office 2 adds none, and of office 1 it is not asked.
    logged: BTreeSet<i64>,
}

#[derive(Debug, Clone)]
pub struct BookRef {
    pub name: Vec<u8>,
    pub snapshot_id: i64,
    pub kind: u8,
    pub owner: u8,
}

/// What keeps a snapshot from being removed by the run's office.
#[derive(Debug, Clone, Copy, PartialEq, Eq)]
pub struct Needed {
    pub named: bool,
    pub reached: bool,
    pub logged: bool,
}

impl Needed {
    pub fn is_so(self) -> bool {
        self.named || self.reached || self.logged
    }
}

impl Book {
    pub fn new(m: &Metadata, office: u8) -> Self {
        let link = |s: &Snapshot| (s.id, s.parent.get());
        let entry = |r: &Ref| BookRef {
            name: r.name.clone(),
            snapshot_id: r.snapshot_id,
            kind: r.kind,
            owner: r.owner,
        };
        Self {
            office,
            refs: m.refs.iter().map(entry).collect(),
            parents: m.snapshots.iter().map(link).collect(),
            logged: m.snapshot_log.iter().map(|e| e.snapshot_id).collect(),
        }
    }

    /// Why a well-formed update is refused with 35, if it is.
    pub fn refuses(&self, update: &Update) -> Option<Cause> {
        match update {
            Update::SetBranchSnapshot(name, _) | Update::RemoveRef(name) => {
                self.refuses_name(update.kind(), name)
            }
            Update::SetRef(r) => self.refuses_name(update.kind(), &r.name),
            Update::RemoveSnapshots(ids) => self.refuses_removal(ids),
            _ => (self.office == OFFICE_2 && is_kept(update.kind()))
                .then_some(Cause::Kept(update.kind())),
        }
    }

    fn refuses_name(&self, kind: u8, name: &[u8]) -> Option<Cause> {
        let held = self.refs.iter().find(|r| r.name == name);
        let office = self.office;
        match held {
            _ if office == OFFICE_2 && name == MAIN_BRANCH.as_bytes() => Some(Cause::Main {
                kind,
                held: held.is_some(),
            }),
            Some(held) if held.owner != office => Some(Cause::Ref { kind, office }),
            _ => None,
        }
    }

    fn refuses_removal(&self, ids: &[i64]) -> Option<Cause> {
        let needed: Vec<Needed> = ids.iter().map(|id| self.needed(*id)).collect();
        needed.iter().any(|n| n.is_so()).then(|| Cause::Removal {
            office: self.office,
            named: needed.iter().any(|n| n.named),
            reached: needed.iter().any(|n| n.reached),
            logged: needed.iter().any(|n| n.logged),
        })
    }

    /// Nothing needs a snapshot that is not held.
    pub fn needed(&self, id: i64) -> Needed {
        let held = self.parents.contains_key(&id);
        let named = self.others().any(|r| r.snapshot_id == id);
        let reached = self
            .others()
            .any(|r| self.reach(r.snapshot_id).contains(&id));
        Needed {
            named: held && named,
            reached: held && reached && !named,
            logged: held && self.office == OFFICE_2 && self.logged.contains(&id),
        }
    }

    /// The refs of the other office.
    pub fn others(&self) -> impl Iterator<Item = &BookRef> {
        self.refs.iter().filter(|r| r.owner != self.office)
    }

    /// The snapshot, its parent, and so on as long as they are held; a cycle ends it.
    pub fn reach(&self, snapshot_id: i64) -> BTreeSet<i64> {
        let mut reach = BTreeSet::new();
        let mut next = Some(snapshot_id);
        while let Some(id) = next.filter(|id| self.parents.contains_key(id)) {
            let is_new = reach.insert(id);
            next = self.parents[&id].filter(|_| is_new);
        }
        reach
    }

    pub fn parent(&self, id: i64) -> Option<i64> {
        self.parents.get(&id).copied().flatten()
    }

    /// The parents from there on lead into a cycle.
    pub fn comes_round(&self, snapshot_id: i64) -> bool {
        let reach = self.reach(snapshot_id);
        let goes_on = |id: &i64| {
            self.parent(*id)
                .is_some_and(|parent| reach.contains(&parent))
        };
        reach.iter().all(goes_on)
    }

    /// The parents that held snapshots have and that are not held.
    pub fn missing_parents(&self) -> BTreeSet<i64> {
        let parents = self.parents.values().flatten().copied();
        parents
            .filter(|id| !self.parents.contains_key(id))
            .collect()
    }

    /// The update has been accepted.
    pub fn follow(&mut self, update: &Update) {
        match update {
            Update::AddSnapshot(s) => self.hold(s),
            Update::SetBranchSnapshot(name, s) => {
                self.hold(s);
                self.set(name, s.id, BRANCH);
            }
            Update::RemoveSnapshots(ids) => {
                self.parents.retain(|id, _| !ids.contains(id));
                self.refs
                    .retain(|r| self.parents.contains_key(&r.snapshot_id));
            }
            Update::SetRef(r) => self.set(&r.name, r.snapshot_id, r.kind),
            Update::RemoveRef(name) => self.refs.retain(|r| r.name != *name),
            _ => (),
        }
    }

    fn hold(&mut self, s: &Snapshot) {
        self.parents.insert(s.id, s.parent.get());
    }

    /// Setting keeps the owner; what is made is the office's.
    fn set(&mut self, name: &[u8], snapshot_id: i64, kind: u8) {
        match self.refs.iter_mut().find(|r| r.name == name) {
            Some(held) => (held.snapshot_id, held.kind) = (snapshot_id, kind),
            None => self.refs.push(BookRef {
                name: name.to_vec(),
                snapshot_id,
                kind,
                owner: self.office,
            }),
        }
    }
}

/// Version, uuid, location, schemas, orders and specs are office 1's to change. 21 is 9 with names.
fn is_kept(kind: u8) -> bool {
    matches!(kind, 1..=3 | 9..=13 | 18..=21)
}

/// Whose the refs of an answer are: a name that the start has keeps its owner, a new one is the office's.
pub fn give_owners(refs: &mut [Ref], start: &[Ref], office: u8) {
    for reference in refs {
        let before = start.iter().find(|r| r.name == reference.name);
        reference.owner = before.map_or(office, |r| r.owner);
    }
}

fn is_main(r: &Ref) -> bool {
    r.name == MAIN_BRANCH.as_bytes()
}

/// The start without `main`, current snapshot and snapshot log, which no accepted update of office 2 touches. From it the published close has
/// no log to rebuild and none to refuse.
pub fn without_main(run: &Run) -> Run {
    let mut run = run.clone();
    run.metadata.refs.retain(|r| !is_main(r));
    run.metadata.current_snapshot_id = Flagged::of(None);
    run.metadata.snapshot_log.clear();
    run
}

/// Puts back what `without_main` left out.
pub fn put_main_back(m: &mut Metadata, start: &Metadata) {
    m.refs
        .extend(start.refs.iter().filter(|r| is_main(r)).cloned());
    m.refs.sort_by(|a, b| a.name.cmp(&b.name));
    m.current_snapshot_id = start.current_snapshot_id;
    m.snapshot_log = start.snapshot_log.clone();
}

/// Whether two answers to a run of office 2, by its close and by the published one, which are not equal, differ by the snapshot log and by nothing
/// else: the published close rebuilds it, or refuses it with 21, where 23 may stand behind.
pub fn differ_by_rule(run: &Run, ours: &Reply, published: &Reply) -> bool {
    match (ours, published) {
        (Ok(ours), Ok(published)) => {
            let unbuilt = Metadata {
                snapshot_log: run.metadata.snapshot_log.clone(),
                ..published.metadata.clone()
            };
            ours.metadata == unbuilt
                && ours.log == published.log
                && ours.expired == published.expired
        }
        (Ok(ours), Err((21, place))) => {
            ours.metadata.snapshot_log == run.metadata.snapshot_log && *place == run.updates.len()
        }
        (Err((23, here)), Err((21, place))) => here == place,
        _ => false,
    }
}
