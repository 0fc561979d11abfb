//! Request (iv) of document 02: at version 3 the next row id becomes first row id plus added rows, and 11 is asked of that sum. The
//! published next row id grows by added rows alone, so the two part at a gap: a snapshot whose first row id is above the next row id.
//! There the builder's next row id is moved up to the first row id before the addition. Its own check and its own sum are then those
//! of the rule, and the snapshot is added and logged as it was given.

use super::reply::Reply;
use crate::case::{Metadata, Run, Update};
use crate::spec::FormatVersion;
use crate::spec::table_metadata_builder::TableMetadataBuilder;

/// First row id and added rows that the update brings, if any.
fn rows(update: &Update) -> Option<(u64, u64)> {
    update.added()?.rows.get()
}

/// Closes the gap that the update leaves, if it does, and says so.
pub fn close(builder: &mut TableMetadataBuilder, update: &Update) -> bool {
    let (metadata, _) = builder.steered();
    match rows(update) {
        Some((first, _))
            if metadata.format_version == FormatVersion::V3 && first > metadata.next_row_id =>
        {
            metadata.next_row_id = first;
            true
        }
        _ => false,
    }
}

/// Both next row ids, each by its rule, read off a list of updates that are accepted.
struct Counters {
    version: u8,
    ours: u128,
    published: u128,
}

impl Counters {
    fn after(start: &Metadata, updates: &[Update]) -> Self {
        let mut now = Self {
            version: start.version,
            ours: start.next_row_id.into(),
            published: start.next_row_id.into(),
        };
        for update in updates {
            match (update, rows(update)) {
                (Update::UpgradeFormatVersion(3), _) if now.version < 3 => {
                    (now.version, now.ours, now.published) = (3, 0, 0);
                }
                (_, Some((first, added))) if now.version == 3 => {
                    now.ours = u128::from(first) + u128::from(added);
                    now.published += u128::from(added);
                }
                _ => (),
            }
        }
        now
    }
}

/// 0, 9 or 11 for a first row id, where the next row id would become `then`.
fn number(first: u64, next: u128, then: u128) -> u8 {
    match u128::from(first) {
        first if first < next => 9,
        _ if then > u64::MAX.into() => 11,
        _ => 0,
    }
}

/// Whether two answers to a run, ours and the published one, which are not equal, differ by the rule and by nothing else. Either both
/// accept, and the next row id alone differs; or ours refuses a row range that the published rule lets pass or refuses otherwise.
pub fn differ_by_rule(run: &Run, ours: &Reply, published: &Reply) -> bool {
    match (ours, published) {
        (Ok(ours), Ok(published)) => {
            let now = Counters::after(&run.metadata, &run.updates);
            let next_row_id = ours.metadata.next_row_id;
            let raised = Metadata {
                next_row_id,
                ..published.metadata.clone()
            };
            now.ours == next_row_id.into()
                && now.published == published.metadata.next_row_id.into()
                && ours.metadata == raised
                && ours.log == published.log
                && ours.expired == published.expired
        }
        (Err((given, place)), published) => {
            let Some((first, added)) = run.updates.get(*place).and_then(rows) else {
                return false;
            };
            let now = Counters::after(&run.metadata, &run.updates[..*place]);
            let grown = |from: u128| from + u128::from(added);
            let wanted = number(first, now.ours, grown(first.into()));
            let passed = number(first, now.published, grown(now.published)) == 0;
            now.version == 3
                && [9, 11].contains(given)
                && *given == wanted
                && match published {
                    Ok(_) => passed,
                    // 19 stands behind 11.
                    Err((19, there)) if there == place => passed,
                    Err((other, there)) if there == place => *other == 11 && !passed,
                    Err((_, there)) => passed && there > place,
                }
        }
        (Ok(_), Err(_)) => false,
    }
}
