//! Our engine: the command `repeat` of the proved program, which reads a case once and answers it as often as it is told. The time of an answer is that of
//! the program with many answers less that of the program with none, so neither its start nor its reading counts. What counts is the
//! call, with the copies of its arguments that it is handed. It is processor time, since a sample is long enough to be interrupted.

use std::io::{self, Write};
use std::path::{Path, PathBuf};
use std::process::{Command, Stdio};

use super::workload::Workload;
use super::{Engine, Timed};
use crate::case::{Case, Flagged, Line, Run, WalkTerms, capacity};

/// How long the answers of one sample take, about, in nanoseconds.
const SAMPLE: f64 = 50e6;

/// Answers of a first try, which tells how many make a sample.
const FIRST: f64 = 1000.0;

pub struct Ours {
    program: PathBuf,
}

impl Ours {
    pub fn of(program: &Path) -> io::Result<Self> {
        let said = |help: &'static str| {
            let program = program.display();
            move |error: io::Error| {
                io::Error::new(error.kind(), format!("{program}: {error}; {help}"))
            }
        };
        let found = program
            .canonicalize()
            .map_err(said("`cd crates/soritauba && rt run -- help` makes it"))?;
        let mut trial = Command::new(&found);
        trial.stdin(Stdio::null()).stdout(Stdio::null());
        trial
            .status()
            .map_err(said("it can not be started; it is a program for x86-64"))?;
        Ok(Self { program: found })
    }
}

impl Engine for Ours {
    fn samples(&self) -> usize {
        40
    }

    fn ready(&self, workload: &Workload) -> Timed {
        let case = line(workload);
        let program = self.program.clone();
        let answer = move |times: f64| {
            let [all, none] = [times, 0.0].map(|times| whole(&program, times, &case));
            (all - none) / times
        };
        let times = (SAMPLE / answer(FIRST).max(1.0)).ceil();
        Box::new(move || answer(times))
    }
}

/// What the program reads. A close is no case by itself: it is written as a run of what is left to it, with a kind of its own.
fn line(workload: &Workload) -> String {
    let line = Line::of_case(&case(workload));
    match workload {
        Workload::Close { .. } => line.replacen(RUN, CLOSE, 1),
        _ => line,
    }
}

/// The kinds of a run and of a close.
const RUN: &str = "1 ";
const CLOSE: &str = "0 ";

fn case(workload: &Workload) -> Case {
    match workload {
        Workload::Run(run) => Case::Run(Box::new(run.clone())),
        Workload::Close { run, left } => Case::Run(Box::new(Run {
            metadata: left.clone(),
            updates: vec![],
            ..run.clone()
        })),
        Workload::Walk {
            ids,
            parents,
            start,
        } => Case::Walk {
            ids: ids.clone(),
            parents: parents.clone(),
            terms: terms(*start),
        },
        Workload::WalkRecords { snapshots, start } => Case::WalkRecords {
            snapshots: snapshots.clone(),
            terms: terms(*start),
        },
    }
}

fn terms(start: i64) -> WalkTerms {
    WalkTerms {
        start,
        excluded: Flagged::of(None),
        buffer_length: capacity::WALK as u64,
    }
}

/// The program from its start to its end, with so many answers, in nanoseconds of processor time.
fn whole(program: &Path, times: f64, case: &str) -> f64 {
    let before = processor_time();
    let mut command = Command::new(program);
    command.arg("repeat");
    command.stdin(Stdio::piped()).stdout(Stdio::piped());
    let mut child = command.spawn().expect("the program starts");
    let mut input = child.stdin.take().expect("its input is a pipe");
    writeln!(input, "{times} {case}").expect("the program reads");
    drop(input);
    let output = child.wait_with_output().expect("the program ends");
    assert!(output.stdout.starts_with(b"0 "), "the case is accepted");
    processor_time() - before
}

/// What all programs that were started and have ended used, in nanoseconds.
fn processor_time() -> f64 {
    // Linux on 64 bits: two times, as seconds and microseconds each, and fourteen counts.
    let mut usage = [0_i64; 18];
    let status = unsafe { getrusage(CHILDREN, &mut usage) };
    assert_eq!(status, 0, "the system tells");
    let [user_s, user_us, system_s, system_us, ..] = usage;
    ((user_s + system_s) * 1_000_000 + user_us + system_us) as f64 * 1000.0
}

const CHILDREN: i32 = -1;

unsafe extern "C" {
    fn getrusage(who: i32, usage: &mut [i64; 18]) -> i32;
}
