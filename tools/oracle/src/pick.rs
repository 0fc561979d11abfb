//! Picks a small list that shows what the given cases show: each reply, each update accepted with and without an entry in the log,
//! each update refused with each number, each place where the answer rests on the wrapper, each reply beside what a published rule
//! says that differs, each reply to a tolerance outside its bounds, what updates of statistics files meet or in what they are at fault,
//! which tables of them are given, what updates of partition specs come to and why they are refused, which of the tags 4 and 5 are given,
//! what two offices do beside each other and what stands behind 35; then versions, pairs and sizes.

mod causes;
mod faults;
mod offices;
mod specs;

use std::collections::{BTreeMap, BTreeSet};
use std::io::{self, BufRead, Write};

use crate::answer::{PublishedAnswer, answer};
use crate::case::{
    Case, CaseReader, Line, More, Run, StatisticsFile, TOLERANCES, Terms, Update, capacity,
};
use crate::port::{self, Own, Owns};
use crate::published::to_published as to;
use crate::spec::TableMetadata;
use crate::spec::table_metadata_builder::TableMetadataBuilder;
use faults::Fault;

/// A thing that a case can show. Those above `Version` come first.
#[derive(Debug, Clone, Copy, PartialEq, Eq, PartialOrd, Ord)]
enum Shown {
    Reply(&'static str, Option<u8>),
    /// An update's kind, and how many entries it logged in an accepted run.
    Accepted(u8, usize),
    /// An update's kind and its refusal's number.
    Refused(u8, u8),
    Own(Own),
    /// A reply, and whether a published rule, known by its mark, accepts, where that gives another answer.
    ByRule(Own, &'static str, Option<u8>, bool),
    /// The reply to a run whose tolerance is outside its bounds, and whether its updates are well formed.
    Outside(Option<u8>, bool),
    /// The tables of statistics files that a run is given, and whether it is accepted.
    Tables(Table, Table, bool),
    /// An update of statistics files in an accepted run.
    Statistics(Met),
    /// The kind of an update that is refused with a statistics file, and whether its snapshot id, its path or its size is at fault.
    Fault(u8, [bool; 3]),
    /// What an update of specs or of a schema, or a close, shows of request (ix).
    Specs(specs::Fact),
    /// Whether schemas with names and specs are given, and the reply, if it is one that such a run aims at.
    SpecTables(bool, bool, Option<u8>),
    /// A fault of a start's schemas or specs (1), alone or not; or of an update of this kind (3).
    StartFault(Part, Fault, bool),
    UpdateFault(u8, Fault),
    /// What a run shows of request (xi).
    Offices(offices::Fact),
    /// A time window: its kind, its answer, and a place where that rests on the wrapper.
    Window(&'static str, bool, Option<Own>),
    /// The version of a run's start and the run's reply.
    Version(u8, Option<u8>),
    /// The kinds of two updates, one after the other, that were logged in an accepted run.
    Pair(u8, u8),
    /// A reply, both kinds of runs being one, and the power of two that the case's length lies under.
    Size(&'static str, Option<u8>, u32),
}

#[derive(Debug, Clone, Copy, PartialEq, Eq, PartialOrd, Ord)]
enum Part {
    Schemas,
    Specs,
}

/// A table of statistics files that may be given.
#[derive(Debug, Clone, Copy, PartialEq, Eq, PartialOrd, Ord)]
enum Table {
    LeftOut,
    Formed,
    /// More than there are slots.
    TooMany,
    /// Its keys do not ascend.
    OutOfOrder,
    /// A file is not well formed.
    NotFormed,
}

/// What an update of statistics files meets.
#[derive(Debug, Clone, Copy, PartialEq, Eq, PartialOrd, Ord)]
struct Met {
    kind: u8,
    /// The table has a file of the snapshot.
    filed: bool,
    /// That file is the one that is set.
    equal: bool,
    /// The table is full.
    full: bool,
    /// The snapshot is held.
    held: bool,
}

/// The replies that runs about partition specs aim at.
const AIMED: [u8; 11] = [0, 1, 3, 14, 15, 18, 19, 31, 32, 33, 34];

struct Candidate {
    line: String,
    shown: BTreeSet<Shown>,
}

/// Reads all cases and writes up to `count` of them, in their order.
pub fn pick(count: usize, input: impl BufRead, mut output: impl Write) -> io::Result<()> {
    let cases: Result<Vec<Case>, _> = CaseReader::new(input).collect();
    let cases = cases.map_err(|_| io::Error::other("bad case"))?;
    if cases.is_empty() {
        return Err(io::Error::other("there is no case to pick"));
    }
    let candidates: Vec<Candidate> = cases.into_iter().map(candidate).collect();
    let mut covered: BTreeSet<&Shown> = BTreeSet::new();
    for place in chosen(&candidates, count) {
        writeln!(output, "{}", candidates[place].line)?;
        covered.extend(&candidates[place].shown);
    }
    let all: BTreeSet<&Shown> = candidates.iter().flat_map(|c| &c.shown).collect();
    eprintln!(
        "picked cases show {} of {} things",
        covered.len(),
        all.len()
    );
    Ok(())
}

fn candidate(case: Case) -> Candidate {
    let answer = answer(&case);
    let line = Line::of_case(&case);
    let mut shown: BTreeSet<Shown> = answer.owns.iter().copied().map(Shown::Own).collect();
    shown.insert(Shown::Reply(case.kind(), answer.number));
    let by_rule = |(own, published): (&Own, &PublishedAnswer)| {
        Shown::ByRule(*own, case.kind(), answer.number, published.number == 0)
    };
    shown.extend(answer.published.iter().map(by_rule));
    let kind = case.run().map_or(case.kind(), |_| "run");
    shown.insert(Shown::Size(kind, answer.number, line.len().ilog2()));
    if let Case::TimeWindow { .. } | Case::TimeWindowGiven { .. } = case {
        let owns = answer.owns.iter().copied().map(Some);
        let within = |own| Shown::Window(case.kind(), answer.line == "1", own);
        shown.extend(owns.chain([None]).map(within));
    }
    if let Case::RunGiven(run, more) = &case {
        shown.insert(tables_shown(run, more, answer.number == Some(0)));
        let number = answer.number.filter(|number| AIMED.contains(number));
        shown.insert(Shown::SpecTables(more.schemas, more.specs, number));
        if answer.number == Some(1) {
            shown.extend(start_faults(run));
        }
        if more.has_offices() {
            let facts = offices::given(run, more, answer.number);
            shown.extend(facts.into_iter().map(Shown::Offices));
        }
    }
    if let Some((run, terms)) = case.run() {
        let formed = run.updates.iter().all(port::update_formed);
        let outside = !TOLERANCES.contains(&terms.tolerance);
        shown.extend(outside.then_some(Shown::Outside(answer.number, formed)));
        shown.insert(Shown::Version(run.metadata.version, answer.number));
        shown.extend(updates_shown(run, terms));
    }
    Candidate { line, shown }
}

fn start_faults(run: &Run) -> Vec<Shown> {
    let schemas = faults::of_schemas(&run.metadata);
    let specs = faults::of_specs(&run.metadata);
    let alone = schemas.len() + specs.len() == 1;
    let of = |part| move |fault| Shown::StartFault(part, fault, alone);
    let of_schemas = schemas.into_iter().map(of(Part::Schemas));
    of_schemas
        .chain(specs.into_iter().map(of(Part::Specs)))
        .collect()
}

fn tables_shown(run: &Run, more: &More, accepted: bool) -> Shown {
    let table = |given: bool, files: &[StatisticsFile]| match port::statistics_formed(files) {
        _ if !given => Table::LeftOut,
        true => Table::Formed,
        false if files.len() > capacity::STATISTICS => Table::TooMany,
        false if !files.is_sorted_by(|a, b| a.snapshot_id < b.snapshot_id) => Table::OutOfOrder,
        false => Table::NotFormed,
    };
    let m = &run.metadata;
    let statistics = table(more.statistics, &m.statistics);
    let partition_statistics = table(more.partition_statistics, &m.partition_statistics);
    Shown::Tables(statistics, partition_statistics, accepted)
}

fn fault(update: &Update) -> Option<Shown> {
    let (Update::SetStatistics(f) | Update::SetPartitionStatistics(f)) = update else {
        return None;
    };
    let too_long = f.path.len() > capacity::FILE_NAME;
    let faults = [f.snapshot_id < 0, too_long, f.size < 0];
    Some(Shown::Fault(update.kind(), faults))
}

fn met(m: &TableMetadata, update: &Update) -> Option<Met> {
    let (id, set) = match update {
        Update::SetStatistics(f) | Update::SetPartitionStatistics(f) => {
            (f.snapshot_id, Some(to::statistics_file(f)))
        }
        Update::RemoveStatistics(id) | Update::RemovePartitionStatistics(id) => (*id, None),
        _ => return None,
    };
    let files = match update {
        Update::SetStatistics(_) | Update::RemoveStatistics(_) => &m.statistics,
        _ => &m.partition_statistics,
    };
    let there = files.get(&id);
    Some(Met {
        kind: update.kind(),
        filed: there.is_some(),
        equal: there.is_some() && there == set.as_ref(),
        full: files.len() == capacity::STATISTICS,
        held: m.snapshots.contains_key(&id),
    })
}

fn updates_shown(run: &Run, terms: Terms) -> Vec<Shown> {
    let mut shown = Vec::new();
    let mut owns = Owns::new();
    let Ok(mut going) = port::begin(run, terms, &mut owns) else {
        return shown;
    };
    let mut before = None;
    for update in &run.updates {
        let before_it = going.clone();
        let builder = before_it.builder();
        let met = met(builder.held(), update);
        going = match port::step(going, update, &mut owns) {
            Ok(going) => going,
            Err(number) => {
                let refused = [Shown::Refused(update.kind(), number)].into_iter();
                let of_offices = offices::refused(run, &before_it, update, number);
                return refused
                    .chain(fault(update))
                    .chain(why_refused(builder, update, number))
                    .chain(of_offices.into_iter().map(Shown::Offices))
                    .collect();
            }
        };
        let facts = specs::accepted(builder, update, going.builder());
        shown.extend(facts.into_iter().map(Shown::Specs));
        let facts = offices::accepted(run, terms, &before_it, update, &going);
        shown.extend(facts.into_iter().map(Shown::Offices));
        let logged = going.builder().logged() - builder.logged();
        shown.push(Shown::Accepted(update.kind(), logged));
        shown.extend(met.map(Shown::Statistics));
        let here = (logged > 0).then_some(update.kind());
        shown.extend(before.zip(here).map(|(a, b)| Shown::Pair(a, b)));
        before = here;
    }
    match port::close(going.clone(), &mut owns) {
        Ok(_) => (),
        Err(31 | 32) => {
            let facts = specs::refused_close(going.builder());
            shown = facts.into_iter().map(Shown::Specs).collect();
        }
        Err(_) => shown.clear(),
    }
    let facts = offices::close(run, terms, &going);
    shown.extend(facts.into_iter().map(Shown::Offices));
    shown
}

/// Of request (ix).
fn why_refused(builder: &TableMetadataBuilder, update: &Update, number: u8) -> Vec<Shown> {
    if number == 3 {
        let faults = faults::of_update(update).into_iter();
        return faults
            .map(|fault| Shown::UpdateFault(update.kind(), fault))
            .collect();
    }
    let facts = specs::refused(builder, update, number).into_iter();
    facts.map(Shown::Specs).collect()
}

/// Round by round one more case for each thing shown: by turns the shortest case and one of middle length.
fn chosen(candidates: &[Candidate], count: usize) -> BTreeSet<usize> {
    let things = places_by_thing(candidates);
    let mut chosen = BTreeSet::new();
    let mut round = 0;
    while chosen.len() < count.min(candidates.len()) {
        round += 1;
        for places in &things {
            let (have, left): (Vec<usize>, Vec<usize>) =
                places.iter().partition(|place| chosen.contains(*place));
            if chosen.len() < count && have.len() < round {
                chosen.extend(left.get(left.len() / 2 * (1 - round % 2)));
            }
        }
    }
    chosen
}

/// For each thing, the wanted and then the rarest first, where it is shown, the shortest case first.
fn places_by_thing(candidates: &[Candidate]) -> Vec<Vec<usize>> {
    let mut by_thing: BTreeMap<Shown, Vec<usize>> = BTreeMap::new();
    for (place, candidate) in candidates.iter().enumerate() {
        for thing in &candidate.shown {
            by_thing.entry(*thing).or_default().push(place);
        }
    }
    let mut things: Vec<(Shown, Vec<usize>)> = by_thing.into_iter().collect();
    things.sort_by_key(|(thing, places)| (*thing >= Shown::Version(0, None), places.len()));
    for (_, places) in &mut things {
        places.sort_by_key(|place| candidates[*place].line.len());
    }
    things.into_iter().map(|(_, places)| places).collect()
}
