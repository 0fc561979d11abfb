//! The inputs about partition specs. Schema 0, the current one, has fields 1 and 2, both longs.

use super::rows::{bare, run};
use crate::case::{
    BUCKET, Case, Flagged, IDENTITY, Metadata, More, PartitionField, Schema, Spec, Update, capacity,
};

pub fn all() -> Vec<(&'static str, Case)> {
    [
        picks_of_ids(),
        picks_of_specs(),
        order_of_removal(),
        bounds(),
        numbers_below(),
    ]
    .into_iter()
    .flatten()
    .collect()
}

/// The start is given its specs, of which the last is the default.
fn given(specs: Vec<Spec>, updates: Vec<Update>) -> Case {
    let default_spec_id = specs.last().map_or(0, |s| s.id);
    let metadata = Metadata {
        schemas: vec![Schema::unnamed(0, [1, 2])],
        specs,
        default_spec_id,
        ..bare()
    };
    with_specs(metadata, updates)
}

fn with_specs(metadata: Metadata, updates: Vec<Update>) -> Case {
    let more = More {
        specs: true,
        ..More::default()
    };
    match run(metadata, updates) {
        Case::Run(run) => Case::RunGiven(run, more),
        case => case,
    }
}

/// The identity of field 1.
fn identity(field_id: Option<i32>, name: &str) -> PartitionField {
    PartitionField {
        source_id: 1,
        field_id: Flagged::of(field_id),
        name: name.into(),
        transform: IDENTITY,
        number: 0,
    }
}

/// The identity of field 2.
fn second(field_id: Option<i32>, name: &str) -> PartitionField {
    PartitionField {
        source_id: 2,
        ..identity(field_id, name)
    }
}

fn bucket(number: i32) -> PartitionField {
    PartitionField {
        name: format!("b{number}").into_bytes(),
        transform: BUCKET,
        number,
        ..identity(None, "")
    }
}

fn spec(id: i32, fields: Vec<PartitionField>) -> Spec {
    Spec { id, fields }
}

fn unpartitioned(id: i32) -> Spec {
    spec(id, vec![])
}

fn add(fields: Vec<PartitionField>) -> Update {
    Update::AddPartitionSpec(spec(0, fields))
}

/// Two held fields of one source and transform with unequal ids.
fn picks_of_ids() -> Vec<(&'static str, Case)> {
    let one = vec![
        spec(1, vec![identity(Some(1000), "a")]),
        spec(2, vec![identity(Some(1001), "b")]),
        unpartitioned(3),
    ];
    let crosswise = vec![
        spec(1, vec![identity(Some(1000), "a"), second(Some(1003), "b")]),
        spec(2, vec![identity(Some(1001), "c"), second(Some(1002), "d")]),
        unpartitioned(3),
    ];
    vec![
        (
            "identity of 1 held with ids 1000 and 1001: add it under another name",
            given(one, vec![add(vec![identity(None, "c")])]),
        ),
        (
            "identities of 1 and 2 held with 1000, 1003 and 1001, 1002: add both",
            given(
                crosswise,
                vec![add(vec![identity(None, "e"), second(None, "f")])],
            ),
        ),
    ]
}

/// Specs 1 and 2 are equal; what is added is reused as either.
fn picks_of_specs() -> Vec<(&'static str, Case)> {
    let twins = [1, 2].map(|id| spec(id, vec![identity(Some(1000), "a")]));
    let then = |id| {
        let updates = vec![
            add(vec![identity(None, "a")]),
            Update::RemovePartitionSpecs(vec![id]),
            Update::SetDefaultPartitionSpec(-1),
        ];
        let specs = twins.iter().cloned().chain([unpartitioned(3)]);
        given(specs.collect(), updates)
    };
    vec![
        (
            "equal specs 1 and 2: add an equal one, remove 1, set -1",
            then(1),
        ),
        ("the same, but remove 2", then(2)),
    ]
}

fn order_of_removal() -> Vec<(&'static str, Case)> {
    let held = vec![
        spec(1, vec![identity(Some(1000), "a")]),
        spec(2, vec![identity(Some(1000), "b")]),
        unpartitioned(3),
    ];
    let remove = vec![Update::RemovePartitionSpecs(vec![2, 1])];
    vec![("specs 2 and 1 removed", given(held, remove))]
}

/// The largest spec id, a full table, an offer that is too long.
fn bounds() -> Vec<(&'static str, Case)> {
    let largest = vec![unpartitioned(i32::MAX)];
    let full = (0..capacity::SPECS as i32).map(|id| {
        let fields = vec![PartitionField {
            field_id: Flagged::of(Some(1000)),
            ..bucket(id + 1)
        }];
        spec(id, fields)
    });
    let one_more = vec![add(vec![bucket(99)])];
    let long_name = "n".repeat(capacity::FIELD_NAME + 1);
    let fields = capacity::SPEC_FIELDS as i32 + 1;
    vec![
        (
            "a new spec above the largest id",
            given(largest, one_more.clone()),
        ),
        ("16 specs and one more", given(full.collect(), one_more)),
        (
            "a partition name of 33 bytes",
            given(
                vec![unpartitioned(0)],
                vec![add(vec![identity(None, &long_name)])],
            ),
        ),
        (
            "a spec with 9 fields",
            given(
                vec![unpartitioned(0)],
                vec![add((1..=fields).map(bucket).collect())],
            ),
        ),
    ]
}

fn numbers_below() -> Vec<(&'static str, Case)> {
    let one = |update| given(vec![unpartitioned(0)], vec![update]);
    let field = |field| one(add(vec![field]));
    let low_last_id = Metadata {
        schemas: vec![Schema::unnamed(0, [1])],
        last_partition_id: -1,
        ..bare()
    };
    vec![
        (
            "a spec offered with id -1",
            one(Update::AddPartitionSpec(spec(-1, vec![bucket(1)]))),
        ),
        (
            "a partition field offered with id 0",
            field(identity(Some(0), "a")),
        ),
        ("a bucket of 0", field(bucket(0))),
        (
            "spec -1 removed",
            one(Update::RemovePartitionSpecs(vec![-1])),
        ),
        ("default spec -2", one(Update::SetDefaultPartitionSpec(-2))),
        (
            "last partition id -1: add the identity of 1",
            with_specs(low_last_id, vec![add(vec![identity(None, "a")])]),
        ),
    ]
}
