//! Writes cases and answers: numbers separated by single spaces, one line each.

use std::fmt::{Display, Write};

use super::*;

pub struct Line {
    text: String,
    /// An answer shows no more records or bytes than there are slots; a case shows all.
    slots_only: bool,
    /// Logged schemas are written with names.
    named: bool,
}

impl Line {
    /// The line of a case.
    pub fn of_case(case: &Case) -> String {
        let mut line = Self {
            slots_only: false,
            ..Self::for_answer()
        };
        line.case(case);
        line.text
    }

    pub fn for_answer() -> Self {
        Self {
            text: String::new(),
            slots_only: true,
            named: false,
        }
    }

    /// For the answer to a run that is given this: its log has schemas with names if it was given them so.
    pub fn for_run(more: &More) -> Self {
        Self {
            named: more.schemas,
            ..Self::for_answer()
        }
    }

    pub fn into_text(self) -> String {
        self.text
    }

    pub fn number(&mut self, number: impl Display) -> &mut Self {
        let space = if self.text.is_empty() { "" } else { " " };
        write!(self.text, "{space}{number}").expect("a string takes every text");
        self
    }

    pub fn numbers<T: Display>(&mut self, numbers: &[T]) -> &mut Self {
        for number in numbers {
            self.number(number);
        }
        self
    }

    /// A count, then the records.
    pub fn counted<T>(
        &mut self,
        slots: usize,
        list: &[T],
        one: impl for<'a> Fn(&'a mut Self, &T) -> &'a mut Self,
    ) -> &mut Self {
        let shown = if self.slots_only { slots } else { list.len() };
        self.number(list.len());
        for item in list.iter().take(shown) {
            one(self, item);
        }
        self
    }

    pub fn list<T: Display>(&mut self, slots: usize, list: &[T]) -> &mut Self {
        self.counted(slots, list, |line, number| line.number(number))
    }

    pub(super) fn flagged<T: Display>(&mut self, value: &Flagged<T>) -> &mut Self {
        self.number(value.present as u8).number(&value.value)
    }

    fn optional_bytes(&mut self, bytes: Option<&Bytes>) -> &mut Self {
        self.number(bytes.is_some() as u8);
        match bytes {
            Some(bytes) => self.list(bytes.len(), bytes),
            None => self,
        }
    }

    fn case(&mut self, case: &Case) -> &mut Self {
        match case {
            Case::Run(run) => self.number(1).run(run),
            Case::RunGiven(run, more) => self.number(9).run(run).more(more, &run.metadata),
            Case::Walk {
                ids,
                parents,
                terms,
            } => {
                self.number(2).list(ids.len(), ids);
                self.list(parents.len(), parents).walk_terms(terms)
            }
            Case::WalkRecords { snapshots, terms } => {
                self.number(3);
                self.counted(snapshots.len(), snapshots, Self::snapshot);
                self.walk_terms(terms)
            }
            Case::Limit(text) => self.number(4).optional_bytes(text.as_ref()),
            Case::TimeWindow { time, last } => self.number(5).number(time).number(last),
            Case::TimeWindowGiven {
                time,
                last,
                tolerance,
            } => self.number(10).numbers(&[time, last, tolerance]),
            Case::RowIds {
                next_row_id,
                first_row,
                added_rows,
            } => self
                .number(6)
                .numbers(&[next_row_id, first_row, added_rows]),
            Case::Trim(location) => self.number(7).list(location.len(), location),
            Case::CurrentAt { log, time } => self.number(8).snapshot_log(log).number(time),
            Case::RowsApart(metadata) => self.number(11).metadata(metadata),
        }
    }

    fn run(&mut self, run: &Run) -> &mut Self {
        self.metadata(&run.metadata).number(run.clock);
        self.optional_bytes(run.file.as_ref());
        self.optional_bytes(run.limit.as_ref());
        self.updates(&run.updates)
    }

    /// A count, then the tags that are given, ascending, with what they give.
    fn more(&mut self, more: &More, m: &Metadata) -> &mut Self {
        let tables = more.tables(m);
        let numbers = [more.tolerance.is_some(), more.office.is_some()];
        let given = numbers.into_iter().filter(|given| *given);
        self.number(given.count() + tables.len());
        if let Some(tolerance) = more.tolerance {
            self.number(1).number(tolerance);
        }
        let (before, behind): (Vec<_>, Vec<_>) = tables.into_iter().partition(|(tag, _)| *tag < 6);
        for (tag, table) in before {
            self.number(tag).table(table);
        }
        if let Some(office) = more.office {
            self.number(6).number(office);
        }
        for (tag, table) in behind {
            self.number(tag).table(table);
        }
        self
    }

    /// A table that a run was given.
    pub fn table(&mut self, table: Table) -> &mut Self {
        match table {
            Table::Statistics(files) => {
                self.counted(capacity::STATISTICS, files, Self::statistics_file)
            }
            Table::Schemas(schemas) => self.counted(capacity::SCHEMAS, schemas, Self::named_schema),
            Table::Specs(m) => {
                self.counted(capacity::SPECS, &m.specs, Self::spec);
                self.number(m.default_spec_id).number(m.last_partition_id)
            }
            Table::Owners(refs) => {
                self.counted(capacity::REFS, refs, |line, r| line.number(r.owner))
            }
        }
    }

    fn walk_terms(&mut self, terms: &WalkTerms) -> &mut Self {
        self.number(terms.start).flagged(&terms.excluded);
        self.number(terms.buffer_length)
    }

    pub fn metadata(&mut self, m: &Metadata) -> &mut Self {
        self.number(m.version).numbers(&m.uuid);
        self.list(capacity::LOCATION, &m.location);
        self.number(m.last_updated_ms)
            .number(m.last_sequence_number);
        self.number(m.next_row_id).number(m.last_column_id);
        self.flagged(&m.current_snapshot_id);
        self.counted(capacity::SNAPSHOTS, &m.snapshots, Self::snapshot);
        self.counted(capacity::REFS, &m.refs, Self::reference);
        self.snapshot_log(&m.snapshot_log);
        self.metadata_log(&m.metadata_log);
        self.counted(capacity::SCHEMAS, &m.schemas, Self::schema);
        self.number(m.current_schema_id);
        self.counted(capacity::ORDERS, &m.orders, Self::order);
        self.number(m.default_order_id)
    }

    pub fn updates(&mut self, updates: &[Update]) -> &mut Self {
        self.counted(capacity::LIST_SUM, updates, Self::update)
    }

    fn update(&mut self, update: &Update) -> &mut Self {
        if let (Update::AddSchema(schema), true) = (update, self.named) {
            return self.number(21).named_schema(schema);
        }
        self.number(update.kind());
        match update {
            Update::AssignUuid(uuid) => self.numbers(uuid),
            Update::UpgradeFormatVersion(version) => self.number(version),
            Update::SetLocation(location) => self.list(capacity::LOCATION, location),
            Update::AddSnapshot(snapshot) => self.snapshot(snapshot),
            Update::SetBranchSnapshot(name, snapshot) => {
                self.list(capacity::REF_NAME, name).snapshot(snapshot)
            }
            Update::RemoveSnapshots(ids) => self.list(capacity::REMOVAL_IDS, ids),
            Update::SetRef(reference) => self.reference(reference),
            Update::RemoveRef(name) => self.list(capacity::REF_NAME, name),
            Update::AddSchema(schema) => self.schema(schema),
            Update::AddNamedSchema(schema) => self.named_schema(schema),
            Update::SetCurrentSchema(id) => self.number(id),
            Update::RemoveSchemas(ids) => self.list(capacity::REMOVAL_IDS, ids),
            Update::AddSortOrder(order) => self.order(order),
            Update::SetDefaultSortOrder(id) => self.number(id),
            Update::SetStatistics(file) => self.statistics_file(file),
            Update::RemoveStatistics(id) => self.number(id),
            Update::SetPartitionStatistics(file) => self.statistics_file(file),
            Update::RemovePartitionStatistics(id) => self.number(id),
            Update::AddPartitionSpec(spec) => self.spec(spec),
            Update::SetDefaultPartitionSpec(id) => self.number(id),
            Update::RemovePartitionSpecs(ids) => self.list(capacity::REMOVAL_IDS, ids),
            Update::UnknownKind(_) => self,
        }
    }
}
