//! Request (i) of document 02, which the published code has nothing for: the snapshot that was current at a time.

use crate::case::{SnapshotLogEntry, capacity};

/// The last entry, in log order, whose time is at most the given one, and how many were read from the end on; or reply 1.
pub fn current_at(
    log: &[SnapshotLogEntry],
    time: i64,
) -> Result<(Option<&SnapshotLogEntry>, usize), u8> {
    if log.len() > capacity::SNAPSHOT_LOG {
        return Err(1);
    }
    let hit = log.iter().rposition(|entry| entry.timestamp_ms <= time);
    Ok((hit.map(|place| &log[place]), log.len() - hit.unwrap_or(0)))
}
