//! Walks by both entries: chains, forks, cycles, parents that are missing or not held, bad lists, buffers that just fit or just
//! do not.

use super::random::Random;
use crate::case::{Case, Flagged, Snapshot, WalkTerms, capacity};
use crate::port;

pub fn walk(random: &mut Random) -> Case {
    let mut ids = ids(random);
    let mut parents = parents(random, &ids);
    let mut terms = WalkTerms {
        start: start(random, &ids),
        excluded: excluded(random, &ids),
        buffer_length: capacity::WALK_BUFFER,
    };
    if random.percent(12) {
        damage(random, &mut ids, &mut parents);
    }
    let length = match port::walk(&ids, &parents, &terms).answer {
        Ok(ids) => ids.len() as u64,
        Err(_) => random.below(65) as u64,
    };
    terms.buffer_length = match random.below(10) {
        0..4 => length,
        4..7 => length.saturating_sub(1),
        7 => length + 1,
        8 => 0,
        _ => capacity::WALK_BUFFER,
    };
    match random.percent(40) {
        true => Case::WalkRecords {
            snapshots: records(random, &ids, &parents),
            terms,
        },
        false => Case::Walk {
            ids,
            parents,
            terms,
        },
    }
}

/// Unequal ids in any order; the number of them often at the capacity.
fn ids(random: &mut Random) -> Vec<i64> {
    let count = random.fill(capacity::WALK);
    let mut pool: Vec<i64> = (0..2 * count as i64).collect();
    pool.extend([i64::MAX - 1, i64::MAX]);
    let mut ids = random.some_of(count, &pool);
    random.shuffle(&mut ids);
    ids
}

/// Mostly one long chain from the first id to the last, at times closed to a cycle or broken.
fn parents(random: &mut Random, ids: &[i64]) -> Vec<i64> {
    let mut parents: Vec<i64> = ids.iter().skip(1).copied().collect();
    if !ids.is_empty() {
        let nowhere = [-1, -1, i64::MIN, 999];
        let end = random.percent(30).then(|| random.one_of(ids));
        parents.push(end.unwrap_or_else(|| random.one_of(&nowhere)));
    }
    for parent in &mut parents {
        if random.percent(2) {
            *parent = random.one_of(&[-1, 999, ids[0], *parent]);
        }
    }
    // The chain need not follow the lists' order.
    let mut places: Vec<usize> = (0..ids.len()).collect();
    if random.percent(15) {
        random.shuffle(&mut places);
    }
    places.into_iter().map(|i| parents[i]).collect()
}

fn start(random: &mut Random, ids: &[i64]) -> i64 {
    match random.below(10) {
        0..7 => ids.first().copied().unwrap_or(0),
        7..9 => random.any_of(ids).unwrap_or(-1),
        _ => random.one_of(&[-1, 998, i64::MIN, i64::MAX]),
    }
}

fn excluded(random: &mut Random, ids: &[i64]) -> Flagged<i64> {
    match random.below(10) {
        0..5 => Flagged::of(None),
        5..9 => Flagged::of(random.any_of(ids)),
        _ => Flagged::of(Some(random.one_of(&[-1, 999, i64::MAX]))),
    }
}

fn damage(random: &mut Random, ids: &mut Vec<i64>, parents: &mut Vec<i64>) {
    match random.below(4) {
        0 => parents.push(-1),
        1 => {
            ids.push(random.one_of(&[-1, i64::MIN]));
            parents.push(-1);
        }
        2 => {
            ids.push(ids.first().copied().unwrap_or(-1));
            parents.push(-1);
        }
        _ => {
            ids.extend(1000..1000 + capacity::WALK as i64);
            parents.extend(1000..1000 + capacity::WALK as i64);
        }
    }
}

/// The rest of a record is not looked at, so it may be anything.
fn records(random: &mut Random, ids: &[i64], parents: &[i64]) -> Vec<Snapshot> {
    let mut record = |(id, parent): (&i64, &i64)| Snapshot {
        id: *id,
        parent: Flagged {
            present: *parent != -1,
            value: match parent {
                -1 => random.one_of(&[0, 1, -1]),
                parent => *parent,
            },
        },
        sequence: random.one_of(&[0, 5, -1]),
        timestamp_ms: random.one_of(&[0, i64::MIN, i64::MAX]),
        rows: Flagged {
            present: random.percent(50),
            value: (random.below(3) as u64, u64::MAX),
        },
    };
    ids.iter().zip(parents).map(&mut record).collect()
}
