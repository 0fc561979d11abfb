//! The published code as an engine. Its arguments are made before the clock starts, since the crate too is handed them by value; what it
//! gives back is freed after the clock has stopped.

use std::hint::black_box;
use std::time::Instant;

use super::workload::Workload;
use super::{Engine, Timed};
use crate::case::{Run, capacity};
use crate::chrono;
use crate::error::Result;
use crate::port;
use crate::published::apply::{Call, apply, call};
use crate::published::to_published as to;
use crate::spec::TableMetadataRef;
use crate::spec::table_metadata_builder::{TableMetadataBuildResult, TableMetadataBuilder};
use crate::util::snapshot::ancestors_of;

pub struct Published;

impl Engine for Published {
    fn samples(&self) -> usize {
        3000
    }

    fn ready(&self, workload: &Workload) -> Timed {
        match workload {
            Workload::Run(run) => ready_run(run),
            Workload::Close { run, .. } => ready_close(run),
            Workload::Walk {
                ids,
                parents,
                start,
            } => ready_walk(port::table(ids, parents), *start),
            Workload::WalkRecords { snapshots, start } => {
                let (ids, parents) = port::links(snapshots);
                ready_walk(port::table(&ids, &parents), *start)
            }
        }
    }
}

fn whole_run(builder: TableMetadataBuilder, calls: Vec<Call>) -> Result<TableMetadataBuildResult> {
    let updated = calls.into_iter().try_fold(builder, apply);
    updated?.build()
}

fn begin(run: &Run) -> TableMetadataBuilder {
    chrono::set_clock(run.clock);
    let previous = to::metadata(&run.metadata, run.limit.as_deref());
    TableMetadataBuilder::new_from_metadata(previous, run.file.as_deref().map(to::text))
}

fn ready_run(run: &Run) -> Timed {
    let start = begin(run);
    let calls: Vec<Call> = run.updates.iter().map(call).collect();
    Box::new(move || {
        let (builder, calls) = (start.clone(), calls.clone());
        let clock = Instant::now();
        let built = black_box(whole_run(builder, calls));
        let time = clock.elapsed().as_nanos() as f64;
        built.expect("the run is accepted");
        time
    })
}

fn ready_close(run: &Run) -> Timed {
    let calls: Vec<Call> = run.updates.iter().map(call).collect();
    let updated = calls.into_iter().try_fold(begin(run), apply);
    let updated = updated.expect("the updates are accepted");
    Box::new(move || {
        let builder = updated.clone();
        let clock = Instant::now();
        let built = black_box(builder.build());
        let time = clock.elapsed().as_nanos() as f64;
        built.expect("the close is accepted");
        time
    })
}

fn ready_walk(table: TableMetadataRef, start: i64) -> Timed {
    let mut buffer = [0; capacity::WALK];
    Box::new(move || {
        let clock = Instant::now();
        let ancestors = ancestors_of(&table, start);
        for (slot, snapshot) in buffer.iter_mut().zip(ancestors) {
            *slot = snapshot.snapshot_id();
        }
        black_box(&buffer);
        clock.elapsed().as_nanos() as f64
    })
}
