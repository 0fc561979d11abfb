//! The numbers of documents 01 and 02 for what the published code says: by the text of an error, or by the arithmetic that stopped.

use std::cell::Cell;
use std::panic::{self, AssertUnwindSafe};

use crate::error::Result;
use crate::spec::{PartitionSpecBuilder, SortOrder};

/// How a text begins, a part it has, and the number it stands for. A ref's name stands in two texts, so these go by the beginning.
const TEXTS: [(&str, &str, u8); 32] = [
    ("Cannot downgrade", "FormatVersion", 4),
    ("Snapshot already exists", "", 5),
    ("Cannot add snapshot with sequence number", "", 6),
    ("Invalid snapshot timestamp", "before last snapshot", 7),
    ("Invalid snapshot timestamp", "before last updated", 8),
    ("Cannot add a snapshot", "behind table next-row-id", 9),
    ("Cannot add a snapshot", "first-row-id is null", 10),
    ("Cannot add snapshot", "next-row-id overflowed", 11),
    ("Cannot set '", "", 12),
    ("Cannot append snapshot", "", 13),
    ("Cannot set current schema to last added", "", 14),
    ("Cannot set default sort order to last added", "", 14),
    ("Cannot set default partition spec to last added", "", 14),
    ("Cannot set current schema to unknown", "", 15),
    ("Cannot set default sort order to unknown", "", 15),
    ("Cannot set default partition spec to unknown", "", 15),
    ("Cannot remove current schema", "", 16),
    ("Sort order to add", SortOrder::UNKNOWN_SOURCE, 17),
    (SortOrder::UNKNOWN_SOURCE, "", 20),
    ("Cannot set invalid snapshot log", "", 21),
    (PartitionSpecBuilder::NO_ID_LEFT, "", 18),
    (
        "Cannot add schema field",
        "existing partition field name",
        31,
    ),
    ("Cannot create partition with name", "not an identity", 31),
    ("Cannot create identity partition", "different field", 31),
    (PartitionSpecBuilder::NAME_IN_SCHEMA, "", 31),
    (PartitionSpecBuilder::NAME_TWICE, "", 31),
    (PartitionSpecBuilder::REDUNDANT, "", 31),
    (PartitionSpecBuilder::ID_TWICE, "", 31),
    (PartitionSpecBuilder::NO_SOURCE, "", 32),
    (PartitionSpecBuilder::WRONG_TYPE, "", 32),
    ("Cannot add partition spec with non-sequential", "", 33),
    ("Cannot remove default partition spec", "", 34),
];

const IDS: &str = "attempt to add with overflow";

/// What the only subtractions of the published code that can pass their type's ends say: those of two times.
const TIMES: &str = "attempt to subtract with overflow";

/// Why the published code gave nothing back.
#[derive(Debug, PartialEq)]
pub enum Refusal {
    Number(u8),
    /// A new schema's, order's or spec's id does not fit its type. It is the only sum of the published code that can pass its type's end.
    IdOverflow,
    /// A difference of times does not fit 64 bits.
    TimeOverflow,
}

thread_local! {
    static ATTEMPTING: Cell<bool> = const { Cell::new(false) };
}

/// Keeps the overflows that `attempt` catches off standard error. To be called once, before the first attempt.
pub fn quiet_attempts() {
    let loud = panic::take_hook();
    panic::set_hook(Box::new(move |info| {
        if !ATTEMPTING.get() {
            loud(info);
        }
    }));
}

/// Calls the published code and numbers its refusal.
pub fn attempt<T>(call: impl FnOnce() -> Result<T>) -> std::result::Result<T, Refusal> {
    in_words(call).map_err(|text| refusal(&text))
}

/// Calls the published code; where it gives nothing back, what it says.
pub fn in_words<T>(call: impl FnOnce() -> Result<T>) -> std::result::Result<T, String> {
    ATTEMPTING.set(true);
    let outcome = panic::catch_unwind(AssertUnwindSafe(call));
    ATTEMPTING.set(false);
    match outcome {
        Ok(Ok(value)) => Ok(value),
        Ok(Err(error)) => Err(error.to_string()),
        Err(stopped) => Err(match stopped.downcast_ref::<&str>() {
            Some(text) => (*text).to_owned(),
            None => panic::resume_unwind(stopped),
        }),
    }
}

fn refusal(text: &str) -> Refusal {
    match text {
        IDS => return Refusal::IdOverflow,
        TIMES => return Refusal::TimeOverflow,
        _ => (),
    }
    let row = TEXTS
        .iter()
        .find(|(beginning, part, _)| text.starts_with(beginning) && text.contains(part));
    match row {
        Some((_, _, number)) => Refusal::Number(*number),
        None => panic!("no number for the text {text:?}"),
    }
}
