//! Runs: most are accepted and deep, some are refused with a number chosen beforehand, some are as they come.

use super::damage;
use super::draft::Draft;
use super::provoke::{self, Aim};
use super::random::Random;
use super::specs;
use crate::case::{More, OFFICE_2, Run, Update, capacity};
use crate::port;

/// So many drafts are tried for a wanted number.
const TRIES: usize = 60;

/// A run that is given this.
pub fn run(random: &mut Random, more: &More) -> Run {
    match random.below(100) {
        0..58 => accepted(random, more),
        58..90 => {
            let number = 1 + random.below(23) as u8;
            refused(random, more, number)
        }
        _ => as_it_comes(random, more),
    }
}

pub fn accepted(random: &mut Random, more: &More) -> Run {
    let sum = match random.below(100) {
        0..25 => random.below(5),
        25..70 => 4 + random.below(12),
        70..95 => 16 + random.below(30),
        _ => capacity::LIST_SUM - random.below(4),
    };
    let mut draft = Draft::new(random, more, |_, _| ());
    draft.grow(random, sum);
    draft.mend(random);
    draft.run
}

pub fn as_it_comes(random: &mut Random, more: &More) -> Run {
    let mut draft = Draft::new(random, more, |_, _| ());
    let count = random.below(20);
    draft.add_unasked(random, count);
    draft.run
}

/// A run that is refused with this number, 1 to 23 or 31 to 35; one that is accepted if no draft allows it.
pub fn refused(random: &mut Random, more: &More, number: u8) -> Run {
    let found = (0..TRIES).find_map(|_| refused_if(random, more, number));
    found.unwrap_or_else(|| accepted(random, more))
}

/// The refused run, if the draft allows one. Often there is a second fault, which stands behind.
fn refused_if(random: &mut Random, more: &More, number: u8) -> Option<Run> {
    let run = match number {
        1 => ill_formed_start(random, more),
        2 => too_long(random, more),
        20..24 => refused_close(random, more, number)?,
        31 | 32 if more.office == Some(OFFICE_2) || random.percent(35) => {
            refused_close(random, more, number)?
        }
        _ => refused_update(random, more, number)?,
    };
    let answer = port::run(&run, more.terms()).answer;
    let wanted = matches!(answer, Err((given, _)) if given == number);
    wanted.then_some(run)
}

fn ill_formed_start(random: &mut Random, more: &More) -> Run {
    let mut run = match random.percent(10) {
        true => too_long(random, more),
        false => accepted(random, more),
    };
    match more.has_specs() && random.percent(60) {
        true => specs::damage_start(random, &mut run.metadata),
        false => damage::start(random, &mut run),
    }
    run
}

/// A sum just above 64, or a count above it; at times the list has ill-formed updates too.
fn too_long(random: &mut Random, more: &More) -> Run {
    let mut run = accepted(random, more);
    let mut filler = random
        .any_of(&run.updates)
        .unwrap_or(Update::RemoveSchemas(Vec::new()));
    if random.percent(20) {
        damage::update(random, &mut filler);
    }
    let sum = capacity::LIST_SUM + 1 + random.below(4);
    while port::list_sum(&run.updates) < sum {
        run.updates.push(filler.clone());
    }
    run
}

/// Some accepted updates, at times some that lead up to it, then the refused one, then some that are never reached.
fn refused_update(random: &mut Random, more: &More, number: u8) -> Option<Run> {
    let aim = Aim::new(random, more, number);
    let mut draft = Draft::new(random, more, |random, run| {
        provoke::prepare(random, run, aim)
    });
    let sum = random.below(12);
    draft.grow(random, sum);
    for update in provoke::lead(random, &draft.now(), aim) {
        let _ = draft.offer(update);
    }
    let update = provoke::update(random, &draft.now(), aim)?;
    if draft.offer(update.clone()) != Err(number) {
        return None;
    }
    draft.run.updates.push(update);
    let tail = random.below(4);
    draft.add_unasked(random, tail);
    Some(draft.run)
}

fn refused_close(random: &mut Random, more: &More, number: u8) -> Option<Run> {
    let aim = Aim::new(random, more, number);
    let mut draft = Draft::new(random, more, |random, run| {
        provoke::prepare(random, run, aim)
    });
    let sum = random.below(12);
    draft.grow(random, sum);
    for update in provoke::closing(random, &draft.now(), number)? {
        draft.offer(update).ok()?;
    }
    (draft.close() == number).then_some(draft.run)
}
