//! Walks: the published iterator gives the ids one by one; the port's own are the checks of the lists (1), the answer to a
//! repeat (24), where the iterator would never end, and the buffer (25).

use std::collections::HashMap;
use std::sync::Arc;

use super::own::{Own, Owns};
use crate::case::{Flagged, Snapshot, WalkTerms, capacity};
use crate::published::to_published as to;
use crate::spec::{SnapshotRef, TableMetadata, TableMetadataRef};
use crate::util::snapshot::{ancestors_between, ancestors_of};

#[derive(Debug)]
pub struct WalkOutcome {
    /// The ids, or the refusal's number.
    pub answer: Result<Vec<i64>, u8>,
    pub owns: Owns,
}

/// Only ids, parents and their flags are looked at.
pub fn walk_records(records: &[Snapshot], terms: &WalkTerms) -> WalkOutcome {
    let (ids, parents) = links(records);
    walk(&ids, &parents, terms)
}

/// The ids, and the parents with -1 for none.
pub fn links(records: &[Snapshot]) -> (Vec<i64>, Vec<i64>) {
    let link = |s: &Snapshot| (s.id, s.parent.get().unwrap_or(-1));
    records.iter().map(link).unzip()
}

pub fn walk(ids: &[i64], parents: &[i64], terms: &WalkTerms) -> WalkOutcome {
    let refuse = |own, number| WalkOutcome {
        answer: Err(number),
        owns: Owns::from([own]),
    };
    if !lists_formed(ids, parents) {
        return refuse(Own::StartNotFormed, 1);
    }
    let Some(ids) = ids_until_repeat(&table(ids, parents), terms) else {
        return refuse(Own::Cycle, 24);
    };
    if ids.len() as u64 > terms.buffer_length {
        return refuse(Own::ShortBuffer, 25);
    }
    WalkOutcome {
        answer: Ok(ids),
        owns: Owns::new(),
    }
}

fn lists_formed(ids: &[i64], parents: &[i64]) -> bool {
    let mut ascending = ids.to_vec();
    ascending.sort_unstable();
    ids.len() == parents.len()
        && ids.len() <= capacity::WALK
        && ids.iter().all(|id| *id >= 0)
        && ascending.is_sorted_by(|a, b| a < b)
}

/// Metadata that holds these snapshots. A parent below 0 means none.
pub fn table(ids: &[i64], parents: &[i64]) -> TableMetadataRef {
    let snapshot = |(id, parent): (&i64, &i64)| Snapshot {
        id: *id,
        parent: Flagged::of(Some(*parent).filter(|parent| *parent >= 0)),
        sequence: 0,
        timestamp_ms: 0,
        rows: Flagged::of(None),
    };
    let held = ids.iter().zip(parents).map(snapshot);
    let snapshots: HashMap<i64, SnapshotRef> =
        held.map(|s| (s.id, Arc::new(to::snapshot(&s)))).collect();
    Arc::new(TableMetadata {
        snapshots,
        ..super::leaves::bare_metadata()
    })
}

/// The published walk.
pub fn published_walk<'a>(
    table: &'a TableMetadataRef,
    terms: &WalkTerms,
) -> Box<dyn Iterator<Item = SnapshotRef> + 'a> {
    match terms.excluded.get() {
        None => Box::new(ancestors_of(table, terms.start)),
        excluded => Box::new(ancestors_between(table, terms.start, excluded)),
    }
}

/// The published walk's ids, or nothing if one comes twice.
fn ids_until_repeat(table: &TableMetadataRef, terms: &WalkTerms) -> Option<Vec<i64>> {
    let mut ids = Vec::new();
    for snapshot in published_walk(table, terms) {
        if ids.contains(&snapshot.snapshot_id) {
            return None;
        }
        ids.push(snapshot.snapshot_id);
    }
    Some(ids)
}
