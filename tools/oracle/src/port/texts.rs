//! The texts of a run. Documents 01 and 02 take any bytes; the published code takes UTF-8.

use crate::case::{Bytes, Run, Schema, Spec, Update};

pub fn all_utf8(run: &Run) -> bool {
    let m = &run.metadata;
    let start = [&m.location].into_iter();
    start
        .chain(&run.file)
        .chain(&run.limit)
        .chain(m.refs.iter().map(|r| &r.name))
        .chain(m.metadata_log.iter().map(|entry| &entry.file))
        .chain(m.statistics.iter().map(|f| &f.path))
        .chain(m.partition_statistics.iter().map(|f| &f.path))
        .chain(m.schemas.iter().flat_map(field_names))
        .chain(m.specs.iter().flat_map(partition_names))
        .chain(run.updates.iter().flat_map(texts))
        .all(|text| std::str::from_utf8(text).is_ok())
}

fn field_names(schema: &Schema) -> Vec<&Bytes> {
    schema.fields.iter().map(|f| &f.name).collect()
}

fn partition_names(spec: &Spec) -> Vec<&Bytes> {
    spec.fields.iter().map(|f| &f.name).collect()
}

fn texts(update: &Update) -> Vec<&Bytes> {
    match update {
        Update::SetLocation(text) | Update::RemoveRef(text) => vec![text],
        Update::SetBranchSnapshot(name, _) => vec![name],
        Update::SetRef(r) => vec![&r.name],
        Update::SetStatistics(f) | Update::SetPartitionStatistics(f) => vec![&f.path],
        Update::AddSchema(s) | Update::AddNamedSchema(s) => field_names(s),
        Update::AddPartitionSpec(s) => partition_names(s),
        _ => Vec::new(),
    }
}
