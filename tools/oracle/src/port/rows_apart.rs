//! Request (xiii) of document 02, which the published code has nothing for: whether the held row ranges are apart.

use super::formed;
use crate::case::Metadata;

/// Well-formed metadata of version 3, every held row range of which ends by the next row id, and no two of which share a row id.
pub fn rows_apart(m: &Metadata) -> bool {
    let held = m.snapshots.iter().filter_map(|s| s.rows.get());
    let ends =
        held.map(|(first, added)| (u128::from(first), u128::from(first) + u128::from(added)));
    // A range of no rows shares none.
    let mut ranges: Vec<(u128, u128)> = ends.clone().filter(|(first, end)| first < end).collect();
    ranges.sort_unstable();
    formed::metadata(m)
        && m.version == 3
        && ends.clone().all(|(_, end)| end <= m.next_row_id.into())
        && ranges.is_sorted_by(|before, after| before.1 <= after.0)
}
