//! A field that is offered without an id takes that of a held field with its source and transform. Where several held ones have unequal
//! ids, the published map keeps the one that comes last in the order of another map; document 02 takes the smallest. No order of that map need
//! give the smallest for two fields at once, so the field is given it before the call: the published code keeps an id that is given.

use crate::case::{Flagged, PartitionField, Spec, Update};
use crate::published::to_published as to;
use crate::spec::TableMetadata;

/// The update with these ids, if a field's id is so picked.
pub fn pick_ids(m: &TableMetadata, update: &Update) -> Option<Update> {
    let Update::AddPartitionSpec(offered) = update else {
        return None;
    };
    let fields = offered.fields.iter().map(|f| pick_id(m, f)).collect();
    let picked = Spec { fields, ..*offered };
    (picked != *offered).then_some(Update::AddPartitionSpec(picked))
}

fn pick_id(m: &TableMetadata, field: &PartitionField) -> PartitionField {
    let ids = matching_ids(m, field);
    let mut picked = field.clone();
    if !field.field_id.present && ids.len() > 1 {
        picked.field_id = Flagged::of(ids.first().copied());
    }
    picked
}

/// The ids of the held fields with this one's source and transform, ascending, each once.
pub fn matching_ids(m: &TableMetadata, field: &PartitionField) -> Vec<i32> {
    let held = m.partition_specs.values().flat_map(|s| s.fields());
    let transform = to::transform(field);
    let matching = held.filter(|f| f.source_id == field.source_id && f.transform == transform);
    let mut ids: Vec<i32> = matching.map(|f| f.field_id).collect();
    ids.sort_unstable();
    ids.dedup();
    ids
}
