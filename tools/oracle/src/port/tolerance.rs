//! Request (v) of document 02: 7 and 8 look back by a tolerance that the run is given, the published ones by a minute. For the run the
//! place of the published constant is set to the tolerance (`spec/minute.rs`), so that the published checks themselves decide.

use super::own::Owns;
use super::reply::Reply;
use super::steps::{begin, step};
use crate::case::{Run, TOLERANCES, Terms};
use crate::spec::MINUTE_MS;

/// A run may be given it, and it is not a minute.
pub fn is_another_tolerance(tolerance: i64) -> bool {
    TOLERANCES.contains(&tolerance) && tolerance != MINUTE_MS
}

/// Whether two answers to a run, by its tolerance and by a minute, which are not equal, differ by the tolerance and by nothing else:
/// the smaller one refuses a time that lies between the two, and the larger one comes further.
pub fn differ_by_rule(run: &Run, terms: Terms, ours: &Reply, published: &Reply) -> bool {
    let (small, by_small, large, by_large) = match terms.tolerance < MINUTE_MS {
        true => (terms.tolerance, ours, MINUTE_MS, published),
        false => (MINUTE_MS, published, terms.tolerance, ours),
    };
    let Err((number @ (7 | 8), place)) = by_small else {
        return false;
    };
    let further = match by_large {
        Ok(_) => true,
        // In one update 8 stands behind 7, and these behind 8.
        Err((8, there)) if there == place => *number == 7,
        Err((other, there)) if there == place => [9, 10, 11, 19].contains(other),
        Err((_, there)) => there > place,
    };
    let early = early_by(run, terms, *number, *place);
    further && early.is_some_and(|ms| i128::from(small) < ms && ms <= i128::from(large))
}

/// By how much the snapshot of the update at this place comes before the time that 7 or 8 looks back from.
fn early_by(run: &Run, terms: Terms, number: u8, place: usize) -> Option<i128> {
    let owns = &mut Owns::new();
    let mut going = begin(run, terms, owns).ok()?;
    for update in &run.updates[..place] {
        going = step(going, update, owns).ok()?;
    }
    let builder = going.builder();
    let own = builder.own_last_updated_ms().unwrap_or(0);
    let last = match number {
        7 => builder.held().snapshot_log.last()?.timestamp_ms,
        _ => builder.held().last_updated_ms.max(own),
    };
    let time = run.updates[place].added()?.timestamp_ms;
    Some(i128::from(last) - i128::from(time))
}
