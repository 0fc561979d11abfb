//! A run: 1, then 2, then 26, then 39, then the updates in order, then the close; and what a published rule that the port changed answers.

use std::collections::BTreeMap;

use super::own::{Own, Owns};
use super::reply::{Accepted, Reply, Step};
use super::steps::{Going, begin, close, close_as_published, step, step_as_published};
use super::{offices, row_gap, tolerance};
use crate::case::{OFFICE_2, Run, Terms, Update};
use crate::spec::MINUTE_MS;

#[derive(Debug)]
pub struct Outcome {
    pub answer: Reply,
    pub owns: Owns,
    /// What a published rule answers, the one for the next row id, that of a minute or the close, where that is something else; by its mark.
    pub published: BTreeMap<Own, Published>,
}

#[derive(Debug)]
pub struct Published {
    pub answer: Reply,
    /// The two answers differ by that rule and by nothing else.
    pub by_rule: bool,
}

pub fn run(run: &Run, terms: Terms) -> Outcome {
    let mut owns = Owns::new();
    let ours = answer(run, terms, step, close, &mut owns);
    let mut published = BTreeMap::new();
    let mut ask = |own, answer: Reply, by_rule: &dyn Fn(&Reply) -> bool| {
        if answer != ours {
            let by_rule = by_rule(&answer);
            published.insert(own, Published { answer, by_rule });
        }
    };
    // Where a gap was closed the published code is asked once more, with the gap.
    if owns.remove(&Own::NextRowId) {
        let with_gap = answer(run, terms, step_as_published, close, &mut Owns::new());
        ask(Own::NextRowId, with_gap, &|published| {
            row_gap::differ_by_rule(run, &ours, published)
        });
    }
    // Where the tolerance is another one it is asked once more, with a minute.
    if tolerance::is_another_tolerance(terms.tolerance) {
        let a_minute = Terms {
            tolerance: MINUTE_MS,
            ..terms
        };
        let by_a_minute = answer(run, a_minute, step, close, &mut Owns::new());
        ask(Own::Tolerance, by_a_minute, &|published| {
            tolerance::differ_by_rule(run, terms, &ours, published)
        });
    }
    // Where the office is 2 it is asked once more, with the published close.
    if terms.office == OFFICE_2 {
        let rebuilt = answer(run, terms, step, close_as_published, &mut Owns::new());
        ask(Own::LogUnbuilt, rebuilt, &|published| {
            offices::differ_by_rule(run, &ours, published)
        });
    }
    owns.extend(published.keys());
    Outcome {
        answer: ours,
        owns,
        published,
    }
}

fn answer(
    run: &Run,
    terms: Terms,
    step: impl Fn(Going, &Update, &mut Owns) -> Step,
    close: impl Fn(Going, &mut Owns) -> Result<Accepted, u8>,
    owns: &mut Owns,
) -> Reply {
    let mut going = begin(run, terms, owns).map_err(|number| (number, 0))?;
    for (place, update) in run.updates.iter().enumerate() {
        going = step(going, update, owns).map_err(|number| (number, place))?;
    }
    close(going, owns).map_err(|number| (number, run.updates.len()))
}
