//! Limit texts, time windows, row ids and locations to trim.

use super::random::Random;
use super::start;
use crate::case::{Bytes, Case};

pub fn leaf(random: &mut Random) -> Case {
    match random.below(10) {
        0..5 => Case::Limit(random.percent(97).then(|| limit_text(random))),
        5..7 => time_window(random),
        7..9 => row_ids(random),
        _ => Case::Trim(start::location(random)),
    }
}

/// The limit of a run: mostly one that lets some entries expire.
pub fn run_limit(random: &mut Random) -> Option<Bytes> {
    match random.below(10) {
        0..3 => None,
        3..8 => Some(
            random
                .one_of(&["0", "1", "2", "+3", "4", "99", "127", "128"])
                .into(),
        ),
        _ => Some(limit_text(random)),
    }
}

/// Numbers on both sides of every bound, in all spellings, and texts that are no number.
fn limit_text(random: &mut Random) -> Bytes {
    let number = match random.below(3) {
        0 => random.below(140) as u128,
        1 => u128::from(u64::MAX) - 2 + random.below(5) as u128,
        _ => u128::from(random.number()) >> random.below(64),
    };
    let mut text = number.to_string().into_bytes();
    if random.percent(25) {
        let zeros = random.one_of(&[1, 2, 30, 400]);
        text.splice(0..0, vec![b'0'; zeros]);
    }
    if random.percent(25) {
        text.insert(0, random.one_of(b"+++- "));
    }
    match random.below(20) {
        0 => text.insert(
            random.below(text.len() + 1),
            random.one_of(b" +-_.a/:\x00\x80\xff"),
        ),
        1 => text.truncate(random.below(2)),
        2 => text.extend(b"0"),
        _ => (),
    }
    text
}

fn time_window(random: &mut Random) -> Case {
    let ends = [i64::MIN, -60_001, -60_000, -1, 0, 100_000, i64::MAX];
    let last = random.one_of(&ends);
    let apart = random.one_of(&[-60_001, -60_000, -59_999, 0, 1, 60_000]);
    let time = match random.percent(70) {
        true => last.saturating_add(apart),
        false => random.one_of(&ends).wrapping_add(random.below(3) as i64),
    };
    Case::TimeWindow { time, last }
}

fn row_ids(random: &mut Random) -> Case {
    let next_row_id = random.one_of(&[0, 1, 10, u64::MAX / 2, u64::MAX - 1, u64::MAX]);
    let first_row = match random.below(3) {
        0 => next_row_id.saturating_sub(1),
        1 => next_row_id,
        _ => next_row_id.saturating_add(random.number() >> random.below(64)),
    };
    // What either rule has room for, and one more.
    let room = u64::MAX - random.one_of(&[first_row, first_row, next_row_id]);
    Case::RowIds {
        next_row_id,
        first_row,
        added_rows: match random.below(3) {
            0 => room,
            1 => room.saturating_add(1),
            _ => random.number() >> random.below(64),
        },
    }
}
