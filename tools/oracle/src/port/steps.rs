//! The steps of a run: its start, an update by the published builder, its close, with the port's own checks between.

use std::rc::Rc;

use super::offices::{self, Book};
use super::own::{Own, Owns};
use super::reply::{Accepted, Built, Step};
use super::{exact_time, formed, map_order, reuse, row_gap, texts};
use crate::TableUpdate;
use crate::case::{Metadata, OFFICE_1, OFFICE_2, Run, TOLERANCES, Terms, Update, capacity};
use crate::chrono;
use crate::published::apply::{apply, call};
use crate::published::number::{Refusal, attempt};
use crate::published::{from_published as from, to_published as to};
use crate::spec::table_metadata_builder::{TableMetadataBuildResult, TableMetadataBuilder};
use crate::spec::{MAIN_BRANCH, TableMetadata, set_tolerance};

/// A run in the making.
#[derive(Clone)]
pub struct Going {
    builder: TableMetadataBuilder,
    /// Of office 2, a second one, which began without `main`, current snapshot and snapshot log; its close is the run's.
    closing: Option<TableMetadataBuilder>,
    book: Book,
    start: Rc<Metadata>,
    office: u8,
}

impl Going {
    pub fn builder(&self) -> &TableMetadataBuilder {
        &self.builder
    }

    pub fn book(&self) -> &Book {
        &self.book
    }

    /// The metadata as the updates so far have left it.
    pub fn metadata(&self) -> Metadata {
        self.owned(from::metadata(self.builder.held()))
    }

    fn owned(&self, mut m: Metadata) -> Metadata {
        offices::give_owners(&mut m.refs, &self.start.refs, self.office);
        m
    }

    /// What the published builder makes of a well-formed update, whosever it is: whether it logs it, or its number.
    pub fn whosever(&self, update: &Update) -> Result<bool, u8> {
        let after = built_without_gap(self.builder.clone(), update, &mut Owns::new())?;
        Ok(after.logged() > self.builder.logged())
    }

    /// One update: 3, then 35, then what the published builder makes of it.
    fn step(
        mut self,
        update: &Update,
        by: fn(TableMetadataBuilder, &Update, &mut Owns) -> Built,
        owns: &mut Owns,
    ) -> Step {
        if !formed::update(update) {
            owns.insert(Own::UpdateNotFormed);
            return Err(3);
        }
        if let Some(cause) = self.book.refuses(update) {
            owns.insert(Own::TheOthers(cause));
            return Err(35);
        }
        self.builder = by(self.builder, update, owns)?;
        self.closing = self.closing.map(|closing| {
            let closing = by(closing, update, &mut Owns::new());
            closing.expect("what is accepted beside `main` is so without it")
        });
        self.book.follow(update);
        Ok(self)
    }
}

/// The run at its start, with the clock and the tolerance set for the steps that follow: 1, then 2, then 26, then 39.
pub fn begin(run: &Run, terms: Terms, owns: &mut Owns) -> Step {
    if !formed::start(run) {
        owns.insert(Own::StartNotFormed);
        return Err(1);
    }
    if formed::list_sum(&run.updates) > capacity::LIST_SUM {
        owns.insert(Own::ListSum);
        return Err(2);
    }
    if !TOLERANCES.contains(&terms.tolerance) {
        owns.insert(Own::ToleranceOutside);
        return Err(26);
    }
    if ![OFFICE_1, OFFICE_2].contains(&terms.office) {
        owns.insert(Own::NoSuchOffice);
        return Err(39);
    }
    if !texts::all_utf8(run) {
        owns.insert(Own::NotUtf8);
    }
    chrono::set_clock(run.clock);
    set_tolerance(terms.tolerance);
    let without_main = (terms.office == OFFICE_2).then(|| offices::without_main(run));
    Ok(Going {
        builder: builder(run),
        closing: without_main.as_ref().map(builder),
        book: Book::new(&run.metadata, terms.office),
        start: Rc::new(run.metadata.clone()),
        office: terms.office,
    })
}

fn builder(run: &Run) -> TableMetadataBuilder {
    let previous = to::metadata(&run.metadata, run.limit.as_deref());
    let file = run.file.as_deref().map(to::text);
    TableMetadataBuilder::new_from_metadata(previous, file)
}

/// One update, with the next row id by document 02. What is refused ends the run, so a gap that was closed for it stays closed.
pub fn step(going: Going, update: &Update, owns: &mut Owns) -> Step {
    going.step(update, built_without_gap, owns)
}

/// One update, with the published next row id.
pub fn step_as_published(going: Going, update: &Update, owns: &mut Owns) -> Step {
    going.step(update, built, owns)
}

fn built_without_gap(mut builder: TableMetadataBuilder, update: &Update, owns: &mut Owns) -> Built {
    if row_gap::close(&mut builder, update) {
        owns.insert(Own::NextRowId);
    }
    built(builder, update, owns)
}

/// The published checks and effect of a well-formed update, then 19 if a table has outgrown its capacity. In documents 01 and 02
/// too 19 is the last check of every update that grows a table, so that it may be asked after the effect.
fn built(builder: TableMetadataBuilder, update: &Update, owns: &mut Owns) -> Built {
    let after = match reuse::pick_ids(builder.held(), update) {
        Some(picked) => {
            owns.insert(Own::SmallestFieldId);
            apply_exactly(builder, &picked, owns)
        }
        None => apply_exactly(builder, update, owns),
    };
    if was_bound(update, &after) {
        owns.insert(Own::Binding);
    }
    let builder = after?;
    if outgrown(builder.held()) {
        owns.insert(Own::TableFull);
        return Err(19);
    }
    Ok(builder)
}

fn apply_exactly(mut builder: TableMetadataBuilder, update: &Update, owns: &mut Owns) -> Built {
    if map_order::steer_pick(&mut builder, update) {
        owns.insert(Own::PickOfEquals);
    }
    if let Some(time) = exact_time::far_time(&builder, update) {
        let alone = builder.clone();
        if let Err(Refusal::TimeOverflow) = attempt(|| apply(alone, call(update))) {
            owns.insert(Own::ExactTime);
            return exact_time::apply_near(builder, update, time);
        }
    }
    attempt(|| apply(builder, call(update))).map_err(|refusal| number(refusal, owns))
}

/// A spec with fields was offered or made the default. 32 comes of nothing else.
fn was_bound(update: &Update, after: &Built) -> bool {
    match (update, after) {
        (Update::AddPartitionSpec(offered), _) => !offered.fields.is_empty(),
        (Update::SetDefaultPartitionSpec(_), Ok(builder)) => default_has_fields(builder),
        (_, after) => matches!(after, Err(32)),
    }
}

fn default_has_fields(builder: &TableMetadataBuilder) -> bool {
    !builder.held().default_spec.fields().is_empty()
}

fn number(refusal: Refusal, owns: &mut Owns) -> u8 {
    match refusal {
        Refusal::Number(number) => number,
        Refusal::IdOverflow => {
            owns.insert(Own::LargestId);
            18
        }
        Refusal::TimeOverflow => unreachable!("far times have been asked for"),
    }
}

fn outgrown(m: &TableMetadata) -> bool {
    m.snapshots.len() > capacity::SNAPSHOTS
        || m.refs.len() > capacity::REFS
        || m.snapshot_log.len() > capacity::SNAPSHOT_LOG
        || m.schemas.len() > capacity::SCHEMAS
        || m.sort_orders.len() > capacity::ORDERS
        || m.partition_specs.len() > capacity::SPECS
        || m.statistics.len() > capacity::STATISTICS
        || m.partition_statistics.len() > capacity::STATISTICS
}

/// The close. That of office 2 is the published one from a start without `main`, current snapshot and snapshot log, which are put back.
pub fn close(going: Going, owns: &mut Owns) -> Result<Accepted, u8> {
    let Some(closing) = going.closing.clone() else {
        return close_as_published(going, owns);
    };
    let mut accepted = closed(closing, owns)?;
    offices::put_main_back(&mut accepted.metadata, &going.start);
    accepted.metadata = going.owned(accepted.metadata);
    Ok(accepted)
}

/// The close without regard to the office.
pub fn close_as_published(going: Going, owns: &mut Owns) -> Result<Accepted, u8> {
    let mut accepted = closed(going.builder.clone(), owns)?;
    accepted.metadata = going.owned(accepted.metadata);
    Ok(accepted)
}

/// 31, 32, 20 and 21 are the published close's; 22 stands after them, and 23 after the metadata log's expiry.
fn closed(builder: TableMetadataBuilder, owns: &mut Owns) -> Result<Accepted, u8> {
    if default_has_fields(&builder) {
        owns.insert(Own::Binding);
    }
    let built = attempt(|| builder.build()).map_err(|refusal| number(refusal, owns))?;
    if main_disagrees(&built.metadata) {
        owns.insert(Own::MainDisagrees);
        return Err(22);
    }
    if built.metadata.metadata_log.len() > capacity::METADATA_LOG {
        owns.insert(Own::MetadataLogFull);
        return Err(23);
    }
    if built.changes.iter().any(removes_several) {
        owns.insert(Own::OrderOfIds);
    }
    if built.changes.iter().any(removes_specs_otherwise) {
        owns.insert(Own::RemovedSpecs);
    }
    Ok(accepted(&built))
}

fn main_disagrees(m: &TableMetadata) -> bool {
    let main = m.refs.get(MAIN_BRANCH);
    m.current_snapshot_id != main.map(|main| main.snapshot_id)
}

fn removes_several(change: &TableUpdate) -> bool {
    match change {
        TableUpdate::RemoveSnapshots { snapshot_ids } => snapshot_ids.len() > 1,
        TableUpdate::RemoveSchemas { schema_ids } => schema_ids.len() > 1,
        _ => false,
    }
}

/// Specs, and not in table order.
fn removes_specs_otherwise(change: &TableUpdate) -> bool {
    match change {
        TableUpdate::RemovePartitionSpecs { spec_ids } => !spec_ids.is_sorted(),
        _ => false,
    }
}

fn accepted(built: &TableMetadataBuildResult) -> Accepted {
    Accepted {
        metadata: from::metadata(&built.metadata),
        log: built.changes.iter().map(from::update).collect(),
        expired: from::metadata_log(&built.expired_metadata_logs),
    }
}
