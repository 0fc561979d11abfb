//! What updates of partition specs and schemas, and a close, show of request (ix): why they are refused, and where ids come from.

use super::causes::{Cause, Offered, Origin, causes, clash, current, misfit, misfit_of, offered};
use crate::case::{Spec, Update, capacity};
use crate::published::to_published as to;
use crate::spec::table_metadata_builder::TableMetadataBuilder;
use crate::spec::{FormatVersion, PartitionSpec, PartitionSpecBuilder, Schema, TableMetadata};

#[derive(Debug, Clone, Copy, PartialEq, Eq, PartialOrd, Ord)]
pub enum Fact {
    /// 31 in adding a spec, whether that is the only cause, and whether a field misfits too.
    Clash(Cause, bool, bool),
    /// 31 in adding a schema, whether there is no higher id (18), and whether a held one is equal but for names and types.
    TakenName(bool, bool),
    /// 32 by an update of this kind, and whether it offers a held spec.
    Misfit(u8, Cause, bool),
    /// 18: no spec id, no field id, and whether ids are out of sequence at version 1 and the table is full.
    NoIdLeft(bool, bool, bool, bool),
    /// 33: by the first field or a later one, where that has its id from, and whether the table is full.
    OutOfSequence(bool, Origin, bool),
    /// A held spec offered again: logged or not, several equal ones, with an id that it has not, out of sequence at version 1, the table full.
    Again(bool, bool, bool, bool, bool),
    /// A new spec: whether it has fields with fresh, given, reused ids and ids that were picked; and the version.
    New(bool, bool, bool, bool, u8),
    /// A fresh id that passes over a given or reused one, or that a field of another spec has.
    Passes(bool, bool),
    /// A new spec without fields raises the last partition id.
    Raises,
    /// The default set: logged as -1, by id or not at all, and whether it clashes with the current schema, which is not asked.
    Default(Option<bool>, bool),
    /// 15 for the last added, which was removed.
    LastAddedGone,
    /// So many removed (two standing for more), in table order or not, and whether others are named.
    Removed(usize, bool, bool),
    /// A schema that is new: whether a held one has the same field ids.
    NewSchema(bool),
    /// The close, with the next cause where that is refused too: by misfits, by its default order.
    Close(Cause, bool, bool),
}

fn equals(m: &TableMetadata, spec: &Spec) -> Vec<PartitionSpec> {
    let spec = to::spec(spec);
    let held = m.partition_specs.values().map(|held| held.as_ref().clone());
    held.filter(|held| spec.is_compatible_with(held)).collect()
}

fn is_full(m: &TableMetadata) -> bool {
    m.partition_specs.len() == capacity::SPECS
}

/// The first field whose id is known and is not the next from 1000 on.
fn out_of_sequence(all: &[Offered]) -> Option<usize> {
    let wrong = |(at, next): (&Offered, i32)| at.id.is_some_and(|id| id != next);
    all.iter().zip(1000..).position(wrong)
}

/// Why the update is refused with this number.
pub fn refused(builder: &TableMetadataBuilder, update: &Update, number: u8) -> Vec<Fact> {
    let m = builder.held();
    match (update, number) {
        (Update::AddPartitionSpec(spec), _) => refused_spec(m, spec, number),
        (Update::SetDefaultPartitionSpec(id), 32) => {
            let fields = m.partition_specs.get(id).map(|s| s.fields().iter());
            let misfits = fields.into_iter().flatten();
            misfits
                .filter_map(|f| misfit(f.source_id, f.transform, current(m)))
                .map(|cause| Fact::Misfit(19, cause, true))
                .collect()
        }
        (Update::SetDefaultPartitionSpec(-1), 15) => vec![Fact::LastAddedGone],
        (update, 31) => {
            let highest = m.schemas.contains_key(&i32::MAX);
            let ids = update.offered_schema().map(|s| s.field_ids());
            let like = m.schemas.values().any(|held| ids_of(held) == ids);
            vec![Fact::TakenName(highest, like)]
        }
        _ => Vec::new(),
    }
}

fn ids_of(schema: &Schema) -> Option<Vec<i32>> {
    Some(schema.fields().iter().map(|f| f.id).collect())
}

fn refused_spec(m: &TableMetadata, spec: &Spec, number: u8) -> Vec<Fact> {
    let all = offered(m, spec);
    let misfits: Vec<Cause> = spec
        .fields
        .iter()
        .filter_map(|f| misfit_of(f, current(m)))
        .collect();
    let version_1 = m.format_version == FormatVersion::V1;
    match number {
        31 => {
            let causes = causes(m, spec);
            let fact = |cause: &Cause| Fact::Clash(*cause, causes.len() == 1, !misfits.is_empty());
            causes.iter().map(fact).collect()
        }
        32 => {
            let held = !equals(m, spec).is_empty();
            let fact = |cause: &Cause| Fact::Misfit(18, *cause, held);
            misfits.iter().map(fact).collect()
        }
        18 => {
            let no_spec_id = m.partition_specs.contains_key(&i32::MAX);
            let no_field_id = passes_the_end(m, spec, &all);
            let wrong = version_1 && out_of_sequence(&all).is_some();
            vec![Fact::NoIdLeft(no_spec_id, no_field_id, wrong, is_full(m))]
        }
        33 => {
            // Where no known id is wrong a fresh one is.
            let fresh = || all.iter().position(|at| at.origin == Origin::Fresh);
            let place = out_of_sequence(&all).or_else(fresh).unwrap_or(0);
            vec![Fact::OutOfSequence(
                place == 0,
                all[place].origin,
                is_full(m),
            )]
        }
        _ => Vec::new(),
    }
}

/// Whether a fresh id is wanted past the largest.
fn passes_the_end(m: &TableMetadata, spec: &Spec, all: &[Offered]) -> bool {
    let mut unbound = to::unbound_spec(spec);
    let fields = unbound.fields.iter_mut().zip(all);
    fields.for_each(|(field, at)| field.field_id = at.id);
    let schema = m.schemas[&m.current_schema_id].clone();
    let binding = PartitionSpecBuilder::new_from_unbound(unbound, schema);
    let bound = binding.map(|b| b.with_last_assigned_field_id(m.last_partition_id).build());
    bound.is_ok_and(|bound| bound.is_err())
}

/// What the update did.
pub fn accepted(
    before: &TableMetadataBuilder,
    update: &Update,
    after: &TableMetadataBuilder,
) -> Vec<Fact> {
    let logged = after.logged() > before.logged();
    let [m, then] = [before, after].map(TableMetadataBuilder::held);
    match update {
        Update::AddPartitionSpec(spec) => {
            match then.partition_specs.len() > m.partition_specs.len() {
                true => new_spec(m, spec, then),
                false => vec![again(m, spec, logged)],
            }
        }
        Update::SetDefaultPartitionSpec(id) => {
            let fields = then.default_spec.fields();
            let clashing = |f: &crate::spec::PartitionField| {
                clash(&f.name, f.source_id, f.transform, current(m)).is_some()
            };
            let as_last_added = logged.then_some(*id == -1);
            vec![Fact::Default(as_last_added, fields.iter().any(clashing))]
        }
        Update::RemovePartitionSpecs(ids) => {
            let held = |id: &&i32| m.partition_specs.contains_key(*id);
            let gone: Vec<&i32> = ids.iter().filter(held).collect();
            let others = gone.len() < ids.len();
            vec![Fact::Removed(gone.len().min(2), gone.is_sorted(), others)]
        }
        Update::AddSchema(_) | Update::AddNamedSchema(_) => {
            let ids = update.offered_schema().map(|s| s.field_ids());
            let like = m.schemas.values().any(|held| ids_of(held) == ids);
            let new = then.schemas.len() > m.schemas.len();
            new.then_some(Fact::NewSchema(like)).into_iter().collect()
        }
        _ => Vec::new(),
    }
}

fn again(m: &TableMetadata, spec: &Spec, logged: bool) -> Fact {
    let equals = equals(m, spec);
    let ids =
        |held: &PartitionSpec| -> Vec<i32> { held.fields().iter().map(|f| f.field_id).collect() };
    let smallest = equals.iter().min_by_key(|held| held.spec_id());
    let all = offered(m, spec);
    let given: Vec<i32> = all.iter().filter_map(|at| at.id).collect();
    let otherwise = smallest.is_some_and(|held| ids(held) != given);
    let wrong = m.format_version == FormatVersion::V1 && out_of_sequence(&all).is_some();
    Fact::Again(logged, equals.len() > 1, otherwise, wrong, is_full(m))
}

fn new_spec(m: &TableMetadata, spec: &Spec, then: &TableMetadata) -> Vec<Fact> {
    let all = offered(m, spec);
    let has = |origin: Origin| all.iter().any(|at| at.origin == origin);
    let version = m.format_version as u8;
    let mut facts = vec![Fact::New(
        has(Origin::Fresh),
        has(Origin::Given),
        has(Origin::Reused),
        has(Origin::Picked),
        version,
    )];
    if spec.fields.is_empty() && then.last_partition_id > m.last_partition_id {
        facts.push(Fact::Raises);
    }
    let newest = then.partition_specs.keys().max().expect("one was added");
    let bound = then.partition_specs[newest].fields().iter().zip(&all);
    let fresh = bound.filter(|(_, at)| at.origin == Origin::Fresh);
    let mut last = m.last_partition_id;
    for (field, _) in fresh {
        let between = last.saturating_add(1)..field.field_id;
        let passes = all
            .iter()
            .filter_map(|at| at.id)
            .any(|id| between.contains(&id));
        let held = m.partition_specs.values().flat_map(|s| s.fields());
        let is_held = held.map(|f| f.field_id).any(|id| id == field.field_id);
        facts.push(Fact::Passes(passes, is_held));
        last = field.field_id;
    }
    facts
}

/// Why a close is refused with 31 or 32.
pub fn refused_close(builder: &TableMetadataBuilder) -> Vec<Fact> {
    let m = builder.held();
    let schema = current(m);
    let fields = m.default_spec.fields();
    let clashes = fields
        .iter()
        .filter_map(|f| clash(&f.name, f.source_id, f.transform, schema));
    let misfits = fields
        .iter()
        .filter_map(|f| misfit(f.source_id, f.transform, schema));
    let misfits: Vec<Cause> = misfits.collect();
    let order = &m.sort_orders[&m.default_sort_order_id].fields;
    let unsorted = order
        .iter()
        .any(|f| schema.field_by_id(f.source_id).is_none());
    let first: Vec<Cause> = clashes.collect();
    let (first, misfits_too) = match first.is_empty() {
        true => (misfits, false),
        false => (first, !misfits.is_empty()),
    };
    let fact = |cause: Cause| Fact::Close(cause, misfits_too, unsorted);
    first.into_iter().map(fact).collect()
}
