//! Shows the rows of docs/DIFFERENCES.md: for each input what the published code says by itself, without the wrapper, and what
//! documents 01 and 02 say.

mod rows;
mod specs;

use std::collections::BTreeSet;
use std::io::{self, Write};

use crate::TableUpdate;
use crate::answer::answer;
use crate::case::{Case, Flagged, Line, Run, Update, WalkTerms};
use crate::chrono;
use crate::port;
use crate::published::apply::{apply, call};
use crate::published::from_published as from;
use crate::published::number::in_words;
use crate::published::to_published as to;
use crate::spec::table_metadata_builder::TableMetadataBuilder;
use crate::spec::{MINUTE_MS, set_tolerance};

/// The map's order is another each time; so often both picks of two have come up.
const TRIES: usize = 64;

/// A walk that lists more ids than there are snapshots goes round.
const ENDLESS: usize = 1000;

pub fn differences(mut output: impl Write) -> io::Result<()> {
    for (title, case) in rows::all() {
        let published: BTreeSet<String> = (0..TRIES).map(|_| alone(&case)).collect();
        let published: Vec<String> = published.into_iter().collect();
        writeln!(output, "{title}")?;
        writeln!(output, "  published: {}", published.join("; or: "))?;
        writeln!(output, "  here:      {}", here(&case))?;
    }
    Ok(())
}

/// The same inputs in the case format, for `soritauba cases`.
pub fn cases(mut output: impl Write) -> io::Result<()> {
    for (_, case) in rows::all() {
        writeln!(output, "{}", Line::of_case(&case))?;
    }
    Ok(())
}

/// The number, and behind a refused run's its place.
fn here(case: &Case) -> String {
    if let Some((run, terms)) = case.run() {
        return match port::run(run, terms).answer {
            Ok(accepted) => {
                let (version, next_row_id) =
                    (accepted.metadata.version, accepted.metadata.next_row_id);
                accepted_with(version, next_row_id) + &logs(accepted.log.last())
            }
            Err((number, place)) => format!("{number} at {place}"),
        };
    }
    let answer = answer(case);
    match (answer.number, answer.line.split(' ').nth(1)) {
        (Some(0), _) | (None, _) => "accepted".to_owned(),
        (Some(number), Some(place)) => format!("{number} at {place}"),
        (Some(number), None) => number.to_string(),
    }
}

/// From version 3 on with the next row id, which has a meaning there.
fn accepted_with(version: u8, next_row_id: u64) -> String {
    match version {
        3 => format!("accepted, next row id {next_row_id}"),
        _ => "accepted".to_owned(),
    }
}

/// The entry of the change log, with the ids of a removal of specs in the order in which they are logged.
fn as_logged(change: &TableUpdate) -> Update {
    match change {
        TableUpdate::RemovePartitionSpecs { spec_ids } => {
            Update::RemovePartitionSpecs(spec_ids.clone())
        }
        change => from::update(change),
    }
}

/// What the last entry says of partition specs, if it does: the ids of an added one's fields, or of those removed.
fn logs(last: Option<&Update>) -> String {
    match last {
        Some(Update::AddPartitionSpec(spec)) => {
            let id = |id: &Flagged<i32>| id.get().map_or("none".to_owned(), |id| id.to_string());
            let ids: Vec<String> = spec.fields.iter().map(|f| id(&f.field_id)).collect();
            format!(", logs a spec with field ids {}", ids.join(" "))
        }
        Some(Update::RemovePartitionSpecs(ids)) => format!(", logs the removal of {ids:?}"),
        _ => String::new(),
    }
}

fn alone(case: &Case) -> String {
    match case {
        Case::Run(run) | Case::RunGiven(run, _) => run_alone(run),
        Case::Walk {
            ids,
            parents,
            terms,
        } => walk_alone(ids, parents, terms),
        _ => unreachable!("the rows are runs and walks"),
    }
}

/// The published builder takes no tolerance; it has its minute.
fn run_alone(run: &Run) -> String {
    chrono::set_clock(run.clock);
    set_tolerance(MINUTE_MS);
    let previous = to::metadata(&run.metadata, run.limit.as_deref());
    let file = run.file.as_deref().map(to::text);
    let mut builder = TableMetadataBuilder::new_from_metadata(previous, file);
    for (place, update) in run.updates.iter().enumerate() {
        builder = match in_words(|| apply(builder, call(update))) {
            Ok(builder) => builder,
            Err(words) => return format!("update {place}: {words}"),
        };
    }
    match in_words(|| builder.build()) {
        Ok(built) => {
            let (version, next_row_id) =
                (built.metadata.format_version, built.metadata.next_row_id);
            let logged = built.changes.last().map(as_logged);
            accepted_with(version as u8, next_row_id) + &logs(logged.as_ref())
        }
        Err(words) => format!("close: {words}"),
    }
}

fn walk_alone(ids: &[i64], parents: &[i64], terms: &WalkTerms) -> String {
    let table = port::table(ids, parents);
    match port::published_walk(&table, terms).take(ENDLESS).count() {
        ENDLESS => format!("{ENDLESS} ids and no end"),
        count => format!("lists {count}"),
    }
}
