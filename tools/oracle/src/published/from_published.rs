//! From the stand-in types back to the case format's records. Maps become ascending tables, and the ids of a logged removal,
//! which the builder writes in its map's order, of specs in the order of the update, go into table order.

use std::collections::HashMap;

use crate::TableUpdate;
use crate::case::{self, Flagged, Update};
use crate::spec::{
    MetadataLog, PartitionSpec, PrimitiveType, Schema, Snapshot, SnapshotReference,
    SnapshotRetention, SortOrder, StatisticsFile, TableMetadata, Transform, UnboundPartitionSpec,
    not_taken,
};

/// The bytes that `to_published::text` made the characters of.
pub fn bytes(text: &str) -> Vec<u8> {
    text.chars().map(|c| c as u8).collect()
}

fn snapshot(s: &Snapshot) -> case::Snapshot {
    case::Snapshot {
        id: s.snapshot_id,
        parent: Flagged::of(s.parent_snapshot_id),
        sequence: s.sequence_number,
        timestamp_ms: s.timestamp_ms,
        rows: Flagged::of(s.row_range),
    }
}

/// The published code has no owners; `port::offices` says whose a ref of the metadata is.
fn reference(name: &str, r: &SnapshotReference) -> case::Ref {
    let (kind, min_snapshots, max_snapshot_age_ms, max_ref_age_ms) = match r.retention {
        SnapshotRetention::Branch {
            min_snapshots_to_keep,
            max_snapshot_age_ms,
            max_ref_age_ms,
        } => (
            case::BRANCH,
            min_snapshots_to_keep,
            max_snapshot_age_ms,
            max_ref_age_ms,
        ),
        SnapshotRetention::Tag { max_ref_age_ms } => (case::TAG, None, None, max_ref_age_ms),
    };
    case::Ref {
        name: bytes(name),
        snapshot_id: r.snapshot_id,
        kind,
        min_snapshots: Flagged::of(min_snapshots),
        max_snapshot_age_ms: Flagged::of(max_snapshot_age_ms),
        max_ref_age_ms: Flagged::of(max_ref_age_ms),
        owner: case::OFFICE_1,
    }
}

fn schema(s: &Schema) -> case::Schema {
    let fields = s.fields().iter().map(|f| case::SchemaField {
        id: f.id,
        name: bytes(&f.name),
        field_type: match f.field_type {
            PrimitiveType::Long => case::LONG,
            PrimitiveType::Timestamp => case::TIMESTAMP,
        },
    });
    case::Schema {
        id: s.schema_id(),
        fields: fields.collect(),
    }
}

/// The transform and its number.
fn transform(transform: Transform) -> (u8, i32) {
    match transform {
        Transform::Identity => (case::IDENTITY, 0),
        Transform::Year => (case::YEAR, 0),
        Transform::Month => (case::MONTH, 0),
        Transform::Day => (case::DAY, 0),
        Transform::Bucket(number) => (case::BUCKET, number),
    }
}

/// A held spec is one all of whose fields have ids.
fn held_spec(s: &PartitionSpec) -> case::Spec {
    spec(&s.clone().into_unbound())
}

fn spec(s: &UnboundPartitionSpec) -> case::Spec {
    let fields = s.fields.iter().map(|f| {
        let (transform, number) = transform(f.transform);
        case::PartitionField {
            source_id: f.source_id,
            field_id: Flagged::of(f.field_id),
            name: bytes(&f.name),
            transform,
            number,
        }
    });
    case::Spec {
        id: s.spec_id.expect("the builder gives every spec its id"),
        fields: fields.collect(),
    }
}

fn order(o: &SortOrder) -> case::Order {
    let fields = o.fields.iter().map(|f| case::SortField {
        source_id: f.source_id,
        direction: f.direction,
        nulls: f.nulls,
    });
    case::Order {
        id: o.order_id,
        fields: fields.collect(),
    }
}

/// Of either table.
fn statistics_file(f: &StatisticsFile) -> case::StatisticsFile {
    case::StatisticsFile {
        snapshot_id: f.snapshot_id,
        path: bytes(&f.statistics_path),
        size: f.file_size_in_bytes,
    }
}

pub fn metadata_log(entries: &[MetadataLog]) -> Vec<case::MetadataLogEntry> {
    let entry = |entry: &MetadataLog| case::MetadataLogEntry {
        file: bytes(&entry.metadata_file),
        timestamp_ms: entry.timestamp_ms,
    };
    entries.iter().map(entry).collect()
}

/// A map's records, ascending by key.
fn table<K: Ord, V, R>(map: &HashMap<K, V>, record: impl Fn(&K, &V) -> R) -> Vec<R> {
    let mut entries: Vec<_> = map.iter().collect();
    entries.sort_by(|a, b| a.0.cmp(b.0));
    entries.into_iter().map(|(k, v)| record(k, v)).collect()
}

pub fn metadata(m: &TableMetadata) -> case::Metadata {
    let snapshot_log = m.snapshot_log.iter().map(|entry| case::SnapshotLogEntry {
        snapshot_id: entry.snapshot_id,
        timestamp_ms: entry.timestamp_ms,
    });
    case::Metadata {
        version: m.format_version as u8,
        uuid: m.table_uuid.0,
        location: bytes(&m.location),
        last_updated_ms: m.last_updated_ms,
        last_sequence_number: m.last_sequence_number,
        next_row_id: m.next_row_id,
        last_column_id: m.last_column_id,
        current_snapshot_id: Flagged::of(m.current_snapshot_id),
        snapshots: table(&m.snapshots, |_, s| snapshot(s)),
        refs: table(&m.refs, |name, r| reference(name, r)),
        snapshot_log: snapshot_log.collect(),
        metadata_log: metadata_log(&m.metadata_log),
        schemas: table(&m.schemas, |_, s| schema(s)),
        current_schema_id: m.current_schema_id,
        orders: table(&m.sort_orders, |_, o| order(o)),
        default_order_id: m.default_sort_order_id,
        statistics: table(&m.statistics, |_, f| statistics_file(f)),
        partition_statistics: table(&m.partition_statistics, |_, f| statistics_file(f)),
        specs: table(&m.partition_specs, |_, s| held_spec(s)),
        default_spec_id: m.default_spec.spec_id(),
        last_partition_id: m.last_partition_id,
    }
}

fn ascending<T: Ord + Copy>(ids: &[T]) -> Vec<T> {
    let mut ids = ids.to_vec();
    ids.sort_unstable();
    ids
}

/// An entry of the change log as the update that it stands for.
pub fn update(change: &TableUpdate) -> Update {
    match change {
        TableUpdate::AssignUuid { uuid } => Update::AssignUuid(uuid.0),
        TableUpdate::UpgradeFormatVersion { format_version } => {
            Update::UpgradeFormatVersion(*format_version as u8)
        }
        TableUpdate::SetLocation { location } => Update::SetLocation(bytes(location)),
        TableUpdate::AddSnapshot { snapshot: added } => Update::AddSnapshot(snapshot(added)),
        TableUpdate::RemoveSnapshots { snapshot_ids } => {
            Update::RemoveSnapshots(ascending(snapshot_ids))
        }
        TableUpdate::SetSnapshotRef {
            ref_name,
            reference: set,
        } => Update::SetRef(reference(ref_name, set)),
        TableUpdate::RemoveSnapshotRef { ref_name } => Update::RemoveRef(bytes(ref_name)),
        TableUpdate::AddSchema { schema: added } => Update::AddSchema(schema(added)),
        TableUpdate::SetCurrentSchema { schema_id } => Update::SetCurrentSchema(*schema_id),
        TableUpdate::RemoveSchemas { schema_ids } => Update::RemoveSchemas(ascending(schema_ids)),
        TableUpdate::AddSortOrder { sort_order } => Update::AddSortOrder(order(sort_order)),
        TableUpdate::SetDefaultSortOrder { sort_order_id } => {
            Update::SetDefaultSortOrder(*sort_order_id)
        }
        TableUpdate::SetStatistics { statistics } => {
            Update::SetStatistics(statistics_file(statistics))
        }
        TableUpdate::RemoveStatistics { snapshot_id } => Update::RemoveStatistics(*snapshot_id),
        TableUpdate::SetPartitionStatistics {
            partition_statistics,
        } => Update::SetPartitionStatistics(statistics_file(partition_statistics)),
        TableUpdate::RemovePartitionStatistics { snapshot_id } => {
            Update::RemovePartitionStatistics(*snapshot_id)
        }
        change => spec_update(change),
    }
}

fn spec_update(change: &TableUpdate) -> Update {
    match change {
        TableUpdate::AddSpec { spec: added } => Update::AddPartitionSpec(spec(added)),
        TableUpdate::SetDefaultSpec { spec_id } => Update::SetDefaultPartitionSpec(*spec_id),
        TableUpdate::RemovePartitionSpecs { spec_ids } => {
            Update::RemovePartitionSpecs(ascending(spec_ids))
        }
        _ => not_taken("this entry of the change log"),
    }
}
