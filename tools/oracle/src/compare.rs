//! Compares a program's answers with the oracle's, line by line. Document 01's three allowances have been made on the oracle's side
//! (its clock is set, its logged ids are sorted, its pick is steered), so equal means equal to the byte. Where a published rule, the one
//! for the next row id, that of a minute or, for office 2, the close, gives another answer, the oracle has both: they must differ by that
//! rule alone, and such cases are counted.

use std::collections::BTreeMap;
use std::io::{self, BufRead, Write};

use crate::answer::{Answer, answer};
use crate::case::{Case, CaseReader, More, Update};
use crate::port::{self, Own};

/// So many differences are shown.
const SHOWN: u64 = 5;

/// Said of a case whose two answers do not differ as the rule says.
const BY_MORE: &str = "the published answer differs by more than the rule";

/// So many numbers of an answer are shown from a difference on.
const CONTEXT: usize = 12;

#[derive(Default)]
struct Tally {
    cases: u64,
    /// Cases by kind and, where there is one, reply number.
    replies: BTreeMap<(&'static str, Option<u8>), u64>,
    owns: BTreeMap<Own, u64>,
    published_alone: u64,
    accepted_runs: u64,
    /// Runs with a tolerance that they may have and that is not a minute.
    other_tolerance: u64,
    /// Runs that are given a table of statistics files, or whose list has an update of one.
    statistics: u64,
    /// The same of partition specs and schemas with names.
    specs: u64,
    /// Runs that are given an office, or owners of refs.
    offices: u64,
    /// Of these the accepted ones, by office and whether the start has a ref of the other.
    accepted_by: BTreeMap<(u8, bool), u64>,
    /// Cases that a published rule answers otherwise: by its mark, kind, reply number and whether that rule accepts.
    by_rule: BTreeMap<(Own, &'static str, Option<u8>, bool), u64>,
    different: u64,
}

/// Reads the cases and the answers to be tried; says whether all are equal.
pub fn compare(
    cases: impl BufRead,
    actual: impl BufRead,
    mut report: impl Write,
) -> io::Result<bool> {
    let mut tally = Tally::default();
    let mut actual = actual.lines();
    for case in CaseReader::new(cases) {
        let Ok(case) = case else {
            writeln!(report, "bad case after case {}", tally.cases)?;
            tally.different += 1;
            break;
        };
        let expected = answer(&case);
        tally.count(&case, &expected);
        let given = actual.next().transpose()?;
        let equal = given.as_ref() == Some(&expected.line);
        let by_rule = expected.published.values().all(|answer| answer.by_rule);
        if equal && by_rule {
            continue;
        }
        tally.different += 1;
        if tally.different <= SHOWN {
            let place = format!("case {} ({})", tally.cases - 1, case.kind());
            match equal {
                true => writeln!(report, "{place}: {BY_MORE}")?,
                false => show(&mut report, &place, &expected.line, given.as_deref())?,
            }
        }
    }
    if tally.cases == 0 {
        return Err(io::Error::other("there is no case to compare"));
    }
    let surplus = actual.count() as u64;
    if surplus > 0 {
        writeln!(report, "{surplus} lines more than cases")?;
    }
    tally.write(report)?;
    Ok(tally.different == 0 && surplus == 0)
}

impl Tally {
    fn count(&mut self, case: &Case, expected: &Answer) {
        self.cases += 1;
        let reply = (case.kind(), expected.number);
        *self.replies.entry(reply).or_default() += 1;
        for own in &expected.owns {
            *self.owns.entry(*own).or_default() += 1;
        }
        self.published_alone += expected.owns.is_empty() as u64;
        if let Some((run, terms)) = case.run() {
            let given =
                |has: fn(&More) -> bool| matches!(case, Case::RunGiven(_, more) if has(more));
            let updated = |is_of: fn(&Update) -> bool| run.updates.iter().any(is_of);
            let statistics = given(More::has_statistics) || updated(Update::is_of_statistics);
            self.statistics += statistics as u64;
            self.specs += (given(More::has_specs) || updated(Update::is_of_specs)) as u64;
            let accepted = expected.number == Some(0);
            self.accepted_runs += accepted as u64;
            self.other_tolerance += port::is_another_tolerance(terms.tolerance) as u64;
            if given(More::has_offices) {
                self.offices += 1;
                let beside = run.metadata.refs.iter().any(|r| r.owner != terms.office);
                let by = self.accepted_by.entry((terms.office, beside));
                *by.or_default() += accepted as u64;
            }
        }
        for (own, published) in &expected.published {
            let here = (*own, case.kind(), expected.number, published.number == 0);
            *self.by_rule.entry(here).or_default() += 1;
        }
    }

    fn write(&self, mut report: impl Write) -> io::Result<()> {
        writeln!(report, "cases {}", self.cases)?;
        for ((kind, number), count) in &self.replies {
            match number {
                Some(number) => writeln!(report, "  {kind} answered {number}: {count}")?,
                None => writeln!(report, "  {kind}: {count}")?,
            }
        }
        writeln!(report, "accepted runs {}", self.accepted_runs)?;
        writeln!(
            report,
            "runs with another tolerance than a minute {}",
            self.other_tolerance
        )?;
        writeln!(report, "runs with statistics files {}", self.statistics)?;
        writeln!(report, "runs with specs or names {}", self.specs)?;
        writeln!(report, "runs with offices {}", self.offices)?;
        for ((office, beside), count) in self.accepted_by.iter().filter(|(_, n)| **n > 0) {
            let others = if *beside { "" } else { "no " };
            writeln!(
                report,
                "  accepted by office {office}, beside {others}refs of the other: {count}"
            )?;
        }
        writeln!(
            report,
            "decided by the published code alone {}",
            self.published_alone
        )?;
        self.write_by_rule(
            &mut report,
            Own::NextRowId,
            "next row id",
            [
                "the published rule accepts",
                "the published rule refuses elsewhere",
            ],
        )?;
        self.write_by_rule(
            &mut report,
            Own::Tolerance,
            "tolerance",
            ["a minute accepts", "a minute refuses elsewhere"],
        )?;
        self.write_by_rule(
            &mut report,
            Own::LogUnbuilt,
            "close of office 2",
            [
                "the published close rebuilds the log",
                "the published close refuses with 21",
            ],
        )?;
        writeln!(
            report,
            "explained, where the published code alone differs or might:"
        )?;
        for (own, count) in &self.owns {
            writeln!(report, "  {}: {count}", own.describe())?;
        }
        writeln!(report, "different {}", self.different)
    }

    /// The cases that the published rule of this mark answers otherwise.
    fn write_by_rule(
        &self,
        mut report: impl Write,
        own: Own,
        title: &str,
        [accepts, refuses]: [&str; 2],
    ) -> io::Result<()> {
        let of_rule = || self.by_rule.iter().filter(|((mark, ..), _)| *mark == own);
        let all: u64 = of_rule().map(|(_, count)| count).sum();
        writeln!(report, "{title} by rule {all}")?;
        for ((_, kind, number, is_accepted), count) in of_rule() {
            let number = number.unwrap_or_default();
            let published = if *is_accepted { accepts } else { refuses };
            writeln!(report, "  {kind} answered {number}, {published}: {count}")?;
        }
        Ok(())
    }
}

/// Both answers from the first number on in which they differ.
fn show(
    mut report: impl Write,
    place: &str,
    expected: &str,
    actual: Option<&str>,
) -> io::Result<()> {
    let Some(actual) = actual else {
        return writeln!(report, "{place}: no answer");
    };
    let expected: Vec<&str> = expected.split(' ').collect();
    let actual: Vec<&str> = actual.split(' ').collect();
    let equal = expected.iter().zip(&actual).take_while(|(e, a)| e == a);
    let from = equal.count();
    let part = |numbers: &[&str]| {
        let shown: Vec<&str> = numbers.iter().skip(from).take(CONTEXT).copied().collect();
        format!("{} .. {}", numbers[0], shown.join(" "))
    };
    writeln!(
        report,
        "{place}: differs from number {from} of the answer on"
    )?;
    writeln!(report, "  expected {}", part(&expected))?;
    writeln!(report, "  actual   {}", part(&actual))
}
