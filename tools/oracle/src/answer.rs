//! A case and its answer's line.

use std::collections::BTreeMap;
use std::io::{BufRead, Write};

use crate::case::{Case, CaseReader, Line, More, Run, SnapshotLogEntry, Terms, WalkTerms};
use crate::port::{self, Outcome, Own, Owns, Reply, WalkOutcome};

/// What the unwritten part of a walk's buffer holds.
const UNWRITTEN: i64 = -7;

pub struct Answer {
    pub line: String,
    /// The reply's number, where the case has one.
    pub number: Option<u8>,
    /// Where the answer rests on the wrapper.
    pub owns: Owns,
    /// What a published rule answers, the one for the next row id, that of a minute or the close, where that is something else; by its mark.
    pub published: BTreeMap<Own, PublishedAnswer>,
}

pub struct PublishedAnswer {
    pub line: String,
    pub number: u8,
    /// The two answers differ by that rule and by nothing else.
    pub by_rule: bool,
}

pub fn answer(case: &Case) -> Answer {
    match case {
        Case::Run(run) => run_answer(run, &More::default()),
        Case::RunGiven(run, more) => run_answer(run, more),
        Case::Walk {
            ids,
            parents,
            terms,
        } => walk_answer(terms, port::walk(ids, parents, terms)),
        Case::WalkRecords { snapshots, terms } => {
            walk_answer(terms, port::walk_records(snapshots, terms))
        }
        Case::Limit(text) => {
            let (limit, owns) = port::limit(text.as_deref());
            leaf_answer(&[limit], None, owns)
        }
        Case::TimeWindow { time, last } => window_answer(*time, *last, Terms::default().tolerance),
        Case::TimeWindowGiven {
            time,
            last,
            tolerance,
        } => window_answer(*time, *last, *tolerance),
        Case::RowIds {
            next_row_id,
            first_row,
            added_rows,
        } => {
            let outcome = port::row_ids(*next_row_id, *first_row, *added_rows);
            reply_answer(outcome, |reply| rows_line(*next_row_id, reply))
        }
        Case::Trim(location) => {
            let trimmed = port::trim(location);
            let mut line = Line::for_answer();
            line.list(trimmed.len(), &trimmed);
            finished(line, None, Owns::new())
        }
        Case::CurrentAt { log, time } => current_answer(log, *time),
        Case::RowsApart(metadata) => {
            let apart = port::rows_apart(metadata);
            leaf_answer(&[apart as u64], None, Owns::from([Own::NotPublished]))
        }
    }
}

fn finished(line: Line, number: Option<u8>, owns: Owns) -> Answer {
    Answer {
        line: line.into_text(),
        number,
        owns,
        published: BTreeMap::new(),
    }
}

fn leaf_answer(numbers: &[u64], number: Option<u8>, owns: Owns) -> Answer {
    let mut line = Line::for_answer();
    line.numbers(numbers);
    finished(line, number, owns)
}

fn window_answer(time: i64, last: i64, tolerance: i64) -> Answer {
    let (within, owns) = port::time_window(time, last, tolerance);
    leaf_answer(&[within as u64], None, owns)
}

/// Number, found, the entry (zeros where there is none) and how many entries were read.
fn current_answer(log: &[SnapshotLogEntry], time: i64) -> Answer {
    let (number, (hit, read)) = match port::current_at(log, time) {
        Ok(found) => (0, found),
        Err(number) => (number, (None, 0)),
    };
    let entry = hit.map_or((0, 0), |entry| (entry.snapshot_id, entry.timestamp_ms));
    let mut line = Line::for_answer();
    line.number(number).number(hit.is_some() as u8);
    line.number(entry.0).number(entry.1).number(read);
    finished(line, Some(number), Owns::from([Own::NotPublished]))
}

fn run_answer(run: &Run, more: &More) -> Answer {
    let outcome = port::run(run, more.terms());
    reply_answer(outcome, |reply| run_line(run, more, reply))
}

/// All answers of an outcome, each written by `line`.
fn reply_answer(outcome: Outcome, line: impl Fn(&Reply) -> Line) -> Answer {
    let number = |reply: &Reply| reply.as_ref().err().map_or(0, |(number, _)| *number);
    let published = outcome.published.iter().map(|(own, published)| {
        let answer = PublishedAnswer {
            line: line(&published.answer).into_text(),
            number: number(&published.answer),
            by_rule: published.by_rule,
        };
        (*own, answer)
    });
    Answer {
        published: published.collect(),
        ..finished(
            line(&outcome.answer),
            Some(number(&outcome.answer)),
            outcome.owns,
        )
    }
}

/// Behind what every run answers stand the tables that it was given, as they are now.
fn run_line(run: &Run, more: &More, reply: &Reply) -> Line {
    let mut line = Line::for_run(more);
    let metadata = match reply {
        Ok(accepted) => {
            line.number(0).number(0).metadata(&accepted.metadata);
            line.updates(&accepted.log).metadata_log(&accepted.expired);
            &accepted.metadata
        }
        Err((number, place)) => {
            line.number(number).number(place).metadata(&run.metadata);
            line.updates(&[]).metadata_log(&[]);
            &run.metadata
        }
    };
    for (_, table) in more.tables(metadata) {
        line.table(table);
    }
    line
}

fn rows_line(next_row_id: u64, reply: &Reply) -> Line {
    let mut line = Line::for_answer();
    match reply {
        Ok(accepted) => line.number(0).number(accepted.metadata.next_row_id),
        Err((number, _)) => line.number(number).number(next_row_id),
    };
    line
}

fn walk_answer(terms: &WalkTerms, outcome: WalkOutcome) -> Answer {
    let (number, ids) = match outcome.answer {
        Ok(ids) => (0, ids),
        Err(number) => (number, Vec::new()),
    };
    let mut buffer = vec![UNWRITTEN; terms.buffer_length as usize];
    buffer[..ids.len()].copy_from_slice(&ids);
    let mut line = Line::for_answer();
    line.number(number).number(ids.len()).numbers(&buffer);
    finished(line, Some(number), outcome.owns)
}

/// Whose rule for the next row id.
#[derive(Clone, Copy, PartialEq)]
pub enum Rows {
    Ours,
    Published,
}

/// Answers every case of the input; at a bad one it says so and stops. Says whether all were answered.
pub fn answer_all(
    rows: Rows,
    input: impl BufRead,
    mut output: impl Write,
) -> std::io::Result<bool> {
    for case in CaseReader::new(input) {
        let Ok(case) = case else {
            return writeln!(output, "bad case").map(|()| false);
        };
        let ours = answer(&case);
        let published = ours.published.get(&Own::NextRowId);
        let line = match published.filter(|_| rows == Rows::Published) {
            Some(published) => &published.line,
            None => &ours.line,
        };
        writeln!(output, "{line}")?;
    }
    Ok(true)
}
