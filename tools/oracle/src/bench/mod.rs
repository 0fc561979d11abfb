//! Times engines on the same workloads: medians, with the fifth and the ninety-fifth of a hundred as the spread.

mod kinds;
mod ours;
mod published;
mod workload;

use std::io::{self, Write};
use std::path::Path;

use kinds::Work;
use ours::Ours;
use published::Published;
use workload::Workload;

/// Runs a workload and says how many nanoseconds that took.
type Timed = Box<dyn FnMut() -> f64>;

/// What can be timed.
trait Engine {
    /// How many times are taken of a workload.
    fn samples(&self) -> usize;

    /// Makes the workload ready in the engine's own types.
    fn ready(&self, workload: &Workload) -> Timed;
}

/// The fifth of a hundred, the median and the ninety-fifth.
struct Spread {
    low: f64,
    median: f64,
    high: f64,
}

impl Spread {
    fn of(samples: usize, mut time: impl FnMut() -> f64) -> Self {
        (0..samples / 10).for_each(|_| {
            time();
        });
        let mut times: Vec<f64> = (0..samples).map(|_| time()).collect();
        times.sort_unstable_by(f64::total_cmp);
        let [low, median, high] = [5, 50, 95].map(|percent| times[samples * percent / 100]);
        Self { low, median, high }
    }

    fn of_run(engine: &dyn Engine, workload: &Workload) -> Self {
        Self::of(engine.samples(), engine.ready(workload))
    }

    /// Of one update: what the run with the timed updates takes longer than the run without them.
    fn of_update(engine: &dyn Engine, work: &Work) -> Self {
        let [mut with, mut without] = work.runs().map(|run| engine.ready(&run));
        let count = work.counted() as f64;
        Self::of(engine.samples(), || (with() - without()) / count)
    }

    fn text(&self, unit: f64, digits: usize) -> String {
        let [low, median, high] = [self.low, self.median, self.high].map(|time| time / unit);
        format!("{median:.digits$} ({low:.digits$} .. {high:.digits$})")
    }
}

/// `program` has the command `repeat`.
pub fn bench(program: &Path, mut report: impl Write) -> io::Result<()> {
    let engine = Ours::of(program)?;
    writeln!(report, "microseconds: median (5% .. 95%)")?;
    line(&mut report, HEAD.map(str::to_owned))?;
    for (title, workload) in workload::all() {
        let published = Spread::of_run(&Published, &workload);
        let ours = Spread::of_run(&engine, &workload);
        let ratio = format!("{:.2}", ours.median / published.median);
        let [published, ours] = [published, ours].map(|time| time.text(1000.0, 2));
        line(&mut report, [title.to_owned(), published, ours, ratio])?;
    }
    Ok(())
}

/// The time of an update, by kind.
pub fn bench_kinds(program: &Path, mut report: impl Write) -> io::Result<()> {
    let engine = Ours::of(program)?;
    writeln!(report, "nanoseconds for an update: median (5% .. 95%)")?;
    line(&mut report, HEAD.map(str::to_owned))?;
    for work in kinds::all() {
        let engines = [&Published as &dyn Engine, &engine];
        let [published, ours] = engines.map(|engine| Spread::of_update(engine, &work));
        let ratio = format!("{:.2}", ours.median / published.median);
        let title = format!("{:<36} {} in a run", work.title, work.counted());
        let [published, ours] = [published, ours].map(|time| time.text(1.0, 0));
        line(&mut report, [title, published, ours, ratio])?;
    }
    Ok(())
}

const HEAD: [&str; 4] = ["", "published", "ours", "ours / published"];

fn line(report: &mut impl Write, [title, published, ours, ratio]: [String; 4]) -> io::Result<()> {
    writeln!(report, "{title:<50} {published:<24} {ours:<32} {ratio}")?;
    report.flush()
}
