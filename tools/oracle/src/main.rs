//! The published builder and walks as an oracle for documents 01 and 02. See README.md.

mod answer;
mod bench;
mod case;
mod catalog;
mod chrono;
mod compare;
mod differences;
mod error;
mod generate;
mod pick;
mod port;
mod published;
mod spec;
mod util;
mod uuid;

use std::fs::File;
use std::io::{self, BufRead, BufReader, BufWriter, stdin, stdout};
use std::path::Path;
use std::process::ExitCode;

use answer::Rows;
// The published files name these at the crate's root.
pub use catalog::{TableCreation, TableUpdate};
use generate::Kind;

const USAGE: &str = "oracle answer [--published-rows] < CASES > ANSWERS
oracle generate --seed S --count N [--kind run|walk|limit|tolerance|statistics|specs|offices|mixed]
oracle compare CASES ACTUAL        (ACTUAL may be - for standard input)
oracle pick --count K < CASES
oracle differences [--cases]
oracle bench [--kinds] [--program PROGRAM]";

/// The program, where `rt run` puts it.
const PROGRAM: &str = concat!(
    env!("CARGO_MANIFEST_DIR"),
    "/../../crates/soritauba/out/soritauba"
);

fn main() -> ExitCode {
    published::number::quiet_attempts();
    let arguments: Vec<String> = std::env::args().skip(1).collect();
    let arguments: Vec<&str> = arguments.iter().map(String::as_str).collect();
    match command(&arguments) {
        Some(Ok(true)) => ExitCode::SUCCESS,
        Some(Ok(false)) => ExitCode::from(1),
        Some(Err(error)) => {
            eprintln!("oracle: {error}");
            ExitCode::from(2)
        }
        None => {
            eprintln!("{USAGE}");
            ExitCode::from(2)
        }
    }
}

/// Whether all is well, or nothing if the arguments are no command.
fn command(arguments: &[&str]) -> Option<io::Result<bool>> {
    let out = BufWriter::new(stdout().lock());
    let done = |result: io::Result<()>| result.map(|()| true);
    Some(match arguments {
        ["answer"] => answer::answer_all(Rows::Ours, stdin().lock(), out),
        ["answer", "--published-rows"] => answer::answer_all(Rows::Published, stdin().lock(), out),
        ["generate", options @ ..] => {
            only(options, &["--seed", "--count", "--kind"])?;
            let seed = number(options, "--seed")?;
            let count = number(options, "--count").filter(|count| *count > 0)?;
            done(generate::generate(seed, count, kind(options)?, out))
        }
        ["compare", cases, actual] => {
            file(cases).and_then(|cases| compare::compare(cases, file_or_stdin(actual)?, out))
        }
        ["pick", options @ ..] => {
            only(options, &["--count"])?;
            let count = number(options, "--count").filter(|count| *count > 0)?;
            done(pick::pick(count as usize, stdin().lock(), out))
        }
        ["differences"] => done(differences::differences(out)),
        ["differences", "--cases"] => done(differences::cases(out)),
        ["bench", "--kinds", options @ ..] => done(bench::bench_kinds(program(options)?, out)),
        ["bench", options @ ..] => done(bench::bench(program(options)?, out)),
        _ => return None,
    })
}

/// Nothing unless the options are these, each with a value.
fn only(options: &[&str], names: &[&str]) -> Option<()> {
    let known = |option: &[&str]| option.len() == 2 && names.contains(&option[0]);
    options.chunks(2).all(known).then_some(())
}

/// Where the program is whose command `repeat` is timed.
fn program<'a>(options: &[&'a str]) -> Option<&'a Path> {
    only(options, &["--program"])?;
    Some(Path::new(value(options, "--program").unwrap_or(PROGRAM)))
}

fn value<'a>(options: &[&'a str], name: &str) -> Option<&'a str> {
    let place = options.iter().position(|option| *option == name)?;
    options.get(place + 1).copied()
}

fn number(options: &[&str], name: &str) -> Option<u64> {
    value(options, name)?.parse().ok()
}

fn kind(options: &[&str]) -> Option<Kind> {
    match value(options, "--kind") {
        Some("run") => Some(Kind::Run),
        Some("walk") => Some(Kind::Walk),
        Some("limit") => Some(Kind::Limit),
        Some("tolerance") => Some(Kind::Tolerance),
        Some("statistics") => Some(Kind::Statistics),
        Some("specs") => Some(Kind::Specs),
        Some("offices") => Some(Kind::Offices),
        Some("mixed") | None => Some(Kind::Mixed),
        Some(_) => None,
    }
}

fn file(path: &str) -> io::Result<BufReader<File>> {
    File::open(path).map(BufReader::new)
}

fn file_or_stdin(path: &str) -> io::Result<Box<dyn BufRead>> {
    match path {
        "-" => Ok(Box::new(stdin().lock())),
        path => Ok(Box::new(file(path)?)),
    }
}
