//! For each kind of update a run with updates of this kind that take effect, as many as there is room for.

use super::workload::{Workload, order, reference, run, schema, snapshot, start};
use crate::case::{
    BRANCH, BUCKET, Flagged, Metadata, Order, PartitionField, SortField, Spec, StatisticsFile, TAG,
    Update,
};

pub struct Work {
    pub title: &'static str,
    metadata: Metadata,
    /// Updates of both runs.
    both: Vec<Update>,
    timed: Vec<Update>,
}

impl Work {
    pub fn counted(&self) -> usize {
        self.timed.len()
    }

    /// The run with the timed updates, and the run without them.
    pub fn runs(&self) -> [Workload; 2] {
        let all = self.both.iter().chain(&self.timed).cloned().collect();
        [all, self.both.clone()].map(|updates| Workload::Run(run(self.metadata.clone(), updates)))
    }
}

pub fn all() -> Vec<Work> {
    [
        fields(),
        snapshots(),
        references(),
        schemas(),
        orders(),
        statistics(),
        specs(),
    ]
    .into_iter()
    .flatten()
    .collect()
}

/// So many updates of the half-full start.
fn work(title: &'static str, count: i64, update: impl Fn(i64) -> Update) -> Work {
    Work {
        title,
        metadata: start(32, 32),
        both: vec![],
        timed: (0..count).map(update).collect(),
    }
}

fn fields() -> Vec<Work> {
    let location = |i| format!("s3://archive/table-{i}").into_bytes();
    vec![
        work("1 assign uuid", 64, |i| Update::AssignUuid([i as u8; 16])),
        Work {
            metadata: Metadata {
                version: 1,
                ..start(32, 32)
            },
            // From version 1 there are but two steps.
            ..work("2 upgrade version, two take effect", 64, |i| {
                Update::UpgradeFormatVersion(3.min(2 + i) as u8)
            })
        },
        work("3 set location", 64, |i| Update::SetLocation(location(i))),
    ]
}

fn snapshots() -> Vec<Work> {
    let commit = |i| Update::SetBranchSnapshot(b"main".to_vec(), snapshot(32 + i));
    let removal = |i| Update::RemoveSnapshots(vec![i]);
    vec![
        work("4 add snapshot", 32, |i| {
            Update::AddSnapshot(snapshot(32 + i))
        }),
        work("5 branch commit on main", 32, commit),
        Work {
            metadata: start(64, 128),
            // Both closes rebuild the log.
            both: vec![removal(0)],
            ..work("6 remove snapshots, one at a time", 62, |i| removal(i + 1))
        },
    ]
}

fn references() -> Vec<Work> {
    let tag = |i| format!("tag-{i:02}");
    let tags = (0..13).map(|i| reference(&tag(i), TAG, i));
    let mut full = start(32, 32);
    full.refs.extend(tags);
    full.refs.sort_by(|a, b| a.name.cmp(&b.name));
    vec![
        work("7 set ref, a held tag", 64, |i| {
            Update::SetRef(reference("v1", TAG, i % 32))
        }),
        work("7 set ref, main", 64, |i| {
            Update::SetRef(reference("main", BRANCH, i % 32))
        }),
        work("7 set ref, a new tag", 13, |i| {
            Update::SetRef(reference(&tag(i), TAG, i))
        }),
        Work {
            metadata: full,
            ..work("8 remove ref", 13, |i| {
                Update::RemoveRef(tag(i).into_bytes())
            })
        },
    ]
}

fn schemas() -> Vec<Work> {
    let full = Metadata {
        schemas: (0..16).map(schema).collect(),
        ..start(32, 32)
    };
    vec![
        work("9 add schema, a new one", 12, |i| {
            Update::AddSchema(schema(4 + i as i32))
        }),
        work("9 add schema, a held one", 64, |i| {
            Update::AddSchema(schema(i as i32 % 4))
        }),
        work("10 set current schema", 64, |i| {
            Update::SetCurrentSchema(i as i32 % 4)
        }),
        Work {
            metadata: full,
            ..work("11 remove schemas, one at a time", 12, |i| {
                Update::RemoveSchemas(vec![4 + i as i32])
            })
        },
    ]
}

fn orders() -> Vec<Work> {
    let new = |i: i64| Order {
        id: 4 + i,
        fields: vec![SortField {
            source_id: 1 + i as i32 % 8,
            direction: 1,
            nulls: i as u8 / 8,
        }],
    };
    vec![
        work("12 add sort order, a new one", 12, |i| {
            Update::AddSortOrder(new(i))
        }),
        work("12 add sort order, a held one", 64, |i| {
            Update::AddSortOrder(order(i % 4))
        }),
        work("13 set default sort order", 64, |i| {
            Update::SetDefaultSortOrder(i % 4)
        }),
    ]
}

/// Of one table; the other has the same.
fn statistics() -> Vec<Work> {
    let set = |i: i64| {
        Update::SetStatistics(StatisticsFile {
            snapshot_id: i % 32,
            path: format!("metadata/{i:05}.stats").into_bytes(),
            size: 4096,
        })
    };
    vec![
        work("14 set statistics, a new one", 32, set),
        Work {
            both: (0..32).map(set).collect(),
            ..work("14 set statistics, a held one", 32, |i| set(32 + i))
        },
        Work {
            both: (0..32).map(set).collect(),
            ..work("15 remove statistics", 32, Update::RemoveStatistics)
        },
    ]
}

/// Of two buckets each, since the start's fields are longs. The start has spec 0, without fields.
fn specs() -> Vec<Work> {
    let field = |source_id: i32, number: i64| PartitionField {
        source_id,
        field_id: Flagged::of(None),
        name: format!("bucket-{source_id}-{number}").into_bytes(),
        transform: BUCKET,
        number: number as i32,
    };
    let add = |i: i64| {
        Update::AddPartitionSpec(Spec {
            id: 0,
            fields: vec![field(1, 1 + i), field(2, 1 + i)],
        })
    };
    vec![
        work("18 add partition spec, a new one", 15, add),
        Work {
            both: (0..4).map(add).collect(),
            ..work("18 add partition spec, a held one", 60, |i| add(i % 4))
        },
        Work {
            both: (0..4).map(add).collect(),
            ..work("19 set default partition spec", 60, |i| {
                Update::SetDefaultPartitionSpec(1 + i as i32 % 4)
            })
        },
        Work {
            both: (0..15).map(add).collect(),
            ..work("20 remove specs, one at a time", 15, |i| {
                Update::RemovePartitionSpecs(vec![1 + i as i32])
            })
        },
    ]
}
