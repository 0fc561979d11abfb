//! From the case format's records, well formed, to the stand-in types.

use std::collections::HashMap;
use std::sync::Arc;

use crate::case;
use crate::spec::{
    FormatVersion, MetadataLog, NestedField, PartitionField, PartitionSpec, PrimitiveType, Schema,
    Snapshot, SnapshotLog, SnapshotReference, SnapshotRetention, SortField, SortOrder,
    StatisticsFile, StructType, TableMetadata, TableProperties, Transform, UnboundPartitionField,
    UnboundPartitionSpec,
};
use crate::uuid::Uuid;

/// Document 01's texts are any bytes and the Rust's are UTF-8: each byte becomes the character of that number, so that equal
/// texts stay equal, unequal ones unequal, and `/`, digits and `main` are themselves.
pub fn text(bytes: &[u8]) -> String {
    bytes.iter().map(|byte| char::from(*byte)).collect()
}

pub fn format_version(version: u8) -> FormatVersion {
    match version {
        1 => FormatVersion::V1,
        2 => FormatVersion::V2,
        _ => FormatVersion::V3,
    }
}

pub fn snapshot(s: &case::Snapshot) -> Snapshot {
    Snapshot {
        snapshot_id: s.id,
        parent_snapshot_id: s.parent.get(),
        sequence_number: s.sequence,
        timestamp_ms: s.timestamp_ms,
        row_range: s.rows.get(),
    }
}

pub fn reference(r: &case::Ref) -> SnapshotReference {
    let max_ref_age_ms = r.max_ref_age_ms.get();
    let retention = match r.kind {
        case::BRANCH => SnapshotRetention::Branch {
            min_snapshots_to_keep: r.min_snapshots.get(),
            max_snapshot_age_ms: r.max_snapshot_age_ms.get(),
            max_ref_age_ms,
        },
        _ => SnapshotRetention::Tag { max_ref_age_ms },
    };
    SnapshotReference {
        snapshot_id: r.snapshot_id,
        retention,
    }
}

pub fn schema(s: &case::Schema) -> Schema {
    let field = |f: &case::SchemaField| NestedField {
        id: f.id,
        name: text(&f.name),
        field_type: match f.field_type {
            case::LONG => PrimitiveType::Long,
            _ => PrimitiveType::Timestamp,
        },
    };
    Schema::of_fields(s.id, s.fields.iter().map(field).collect())
}

pub fn transform(f: &case::PartitionField) -> Transform {
    match f.transform {
        case::IDENTITY => Transform::Identity,
        case::YEAR => Transform::Year,
        case::MONTH => Transform::Month,
        case::DAY => Transform::Day,
        _ => Transform::Bucket(f.number),
    }
}

/// A held spec, whose fields have ids; or an offered one, where ids are not looked at.
pub fn spec(s: &case::Spec) -> PartitionSpec {
    let field = |f: &case::PartitionField| PartitionField {
        source_id: f.source_id,
        field_id: f.field_id.value,
        name: text(&f.name),
        transform: transform(f),
    };
    PartitionSpec::of_fields(s.id, s.fields.iter().map(field).collect())
}

/// An offered spec.
pub fn unbound_spec(s: &case::Spec) -> UnboundPartitionSpec {
    let field = |f: &case::PartitionField| UnboundPartitionField {
        source_id: f.source_id,
        field_id: f.field_id.get(),
        name: text(&f.name),
        transform: transform(f),
    };
    UnboundPartitionSpec {
        spec_id: Some(s.id),
        fields: s.fields.iter().map(field).collect(),
    }
}

pub fn sort_order(o: &case::Order) -> SortOrder {
    let field = |f: &case::SortField| SortField {
        source_id: f.source_id,
        direction: f.direction,
        nulls: f.nulls,
    };
    SortOrder {
        order_id: o.id,
        fields: o.fields.iter().map(field).collect(),
    }
}

/// Of either table.
pub fn statistics_file(f: &case::StatisticsFile) -> StatisticsFile {
    StatisticsFile {
        snapshot_id: f.snapshot_id,
        statistics_path: text(&f.path),
        file_size_in_bytes: f.size,
    }
}

fn snapshot_log(entry: &case::SnapshotLogEntry) -> SnapshotLog {
    SnapshotLog {
        snapshot_id: entry.snapshot_id,
        timestamp_ms: entry.timestamp_ms,
    }
}

fn metadata_log(entry: &case::MetadataLogEntry) -> MetadataLog {
    MetadataLog {
        metadata_file: text(&entry.file),
        timestamp_ms: entry.timestamp_ms,
    }
}

/// The property that limits the metadata log, if its text is given.
pub fn properties(limit: Option<&[u8]>) -> HashMap<String, String> {
    let key = TableProperties::PROPERTY_METADATA_PREVIOUS_VERSIONS_MAX;
    limit
        .map(|limit| (key.to_string(), text(limit)))
        .into_iter()
        .collect()
}

/// A keyed table as the map that the published code holds.
fn table<R, K: std::hash::Hash + Eq, V>(
    records: &[R],
    entry: impl Fn(&R) -> (K, V),
) -> HashMap<K, V> {
    records.iter().map(entry).collect()
}

/// The published metadata has a copy of its default spec beside the table.
fn default_spec(specs: &HashMap<i32, Arc<PartitionSpec>>, id: i32) -> Arc<PartitionSpec> {
    let unpartitioned = || PartitionSpec::unpartition_spec().with_spec_id(id);
    let held = specs.get(&id).cloned();
    held.unwrap_or_else(|| Arc::new(unpartitioned()))
}

pub fn metadata(m: &case::Metadata, limit: Option<&[u8]>) -> TableMetadata {
    let partition_specs = table(&m.specs, |s| (s.id, Arc::new(spec(s))));
    let of_snapshot = |f: &case::StatisticsFile| (f.snapshot_id, statistics_file(f));
    TableMetadata {
        format_version: format_version(m.version),
        table_uuid: Uuid(m.uuid),
        location: text(&m.location),
        last_sequence_number: m.last_sequence_number,
        last_updated_ms: m.last_updated_ms,
        last_column_id: m.last_column_id,
        schemas: table(&m.schemas, |s| (s.id, Arc::new(schema(s)))),
        current_schema_id: m.current_schema_id,
        default_spec: default_spec(&partition_specs, m.default_spec_id),
        partition_specs,
        default_partition_type: StructType,
        last_partition_id: m.last_partition_id,
        properties: properties(limit),
        current_snapshot_id: m.current_snapshot_id.get(),
        snapshots: table(&m.snapshots, |s| (s.id, Arc::new(snapshot(s)))),
        snapshot_log: m.snapshot_log.iter().map(snapshot_log).collect(),
        metadata_log: m.metadata_log.iter().map(metadata_log).collect(),
        sort_orders: table(&m.orders, |o| (o.id, Arc::new(sort_order(o)))),
        default_sort_order_id: m.default_order_id,
        refs: table(&m.refs, |r| (text(&r.name), reference(r))),
        statistics: table(&m.statistics, of_snapshot),
        partition_statistics: table(&m.partition_statistics, of_snapshot),
        encryption_keys: HashMap::new(),
        next_row_id: m.next_row_id,
    }
}
