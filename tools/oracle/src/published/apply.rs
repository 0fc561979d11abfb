//! One update is one call of the published builder. The call's arguments are made first, so that `bench` can time the call alone.

use super::to_published as to;
use crate::TableUpdate;
use crate::case::Update;
use crate::error::Result;
use crate::spec::table_metadata_builder::TableMetadataBuilder;
use crate::spec::{Snapshot, not_taken};
use crate::uuid::Uuid;

/// A call's arguments. The change log has an entry for every update but a branch commit, and its type serves here too.
#[derive(Clone)]
pub enum Call {
    Update(TableUpdate),
    BranchCommit(Snapshot, String),
}

/// The call for a well-formed update.
pub fn call(update: &Update) -> Call {
    Call::Update(match update {
        Update::AssignUuid(uuid) => TableUpdate::AssignUuid { uuid: Uuid(*uuid) },
        Update::UpgradeFormatVersion(version) => TableUpdate::UpgradeFormatVersion {
            format_version: to::format_version(*version),
        },
        Update::SetLocation(location) => TableUpdate::SetLocation {
            location: to::text(location),
        },
        Update::AddSnapshot(s) => TableUpdate::AddSnapshot {
            snapshot: to::snapshot(s),
        },
        Update::SetBranchSnapshot(name, s) => {
            return Call::BranchCommit(to::snapshot(s), to::text(name));
        }
        Update::RemoveSnapshots(ids) => TableUpdate::RemoveSnapshots {
            snapshot_ids: ids.clone(),
        },
        Update::SetRef(r) => TableUpdate::SetSnapshotRef {
            ref_name: to::text(&r.name),
            reference: to::reference(r),
        },
        Update::RemoveRef(name) => TableUpdate::RemoveSnapshotRef {
            ref_name: to::text(name),
        },
        update => schema_order_or_statistics(update),
    })
}

fn schema_order_or_statistics(update: &Update) -> TableUpdate {
    match update {
        Update::AddSchema(schema) | Update::AddNamedSchema(schema) => TableUpdate::AddSchema {
            schema: to::schema(schema),
        },
        Update::SetCurrentSchema(id) => TableUpdate::SetCurrentSchema { schema_id: *id },
        Update::RemoveSchemas(ids) => TableUpdate::RemoveSchemas {
            schema_ids: ids.clone(),
        },
        Update::AddSortOrder(order) => TableUpdate::AddSortOrder {
            sort_order: to::sort_order(order),
        },
        Update::SetDefaultSortOrder(id) => TableUpdate::SetDefaultSortOrder { sort_order_id: *id },
        Update::SetStatistics(file) => TableUpdate::SetStatistics {
            statistics: to::statistics_file(file),
        },
        Update::RemoveStatistics(id) => TableUpdate::RemoveStatistics { snapshot_id: *id },
        Update::SetPartitionStatistics(file) => TableUpdate::SetPartitionStatistics {
            partition_statistics: to::statistics_file(file),
        },
        Update::RemovePartitionStatistics(id) => {
            TableUpdate::RemovePartitionStatistics { snapshot_id: *id }
        }
        update => partition_spec(update),
    }
}

fn partition_spec(update: &Update) -> TableUpdate {
    match update {
        Update::AddPartitionSpec(spec) => TableUpdate::AddSpec {
            spec: to::unbound_spec(spec),
        },
        Update::SetDefaultPartitionSpec(id) => TableUpdate::SetDefaultSpec { spec_id: *id },
        Update::RemovePartitionSpecs(ids) => TableUpdate::RemovePartitionSpecs {
            spec_ids: ids.clone(),
        },
        _ => not_taken("an unknown kind of update"),
    }
}

pub fn apply(builder: TableMetadataBuilder, call: Call) -> Result<TableMetadataBuilder> {
    use TableUpdate::*;
    let update = match call {
        Call::Update(update) => update,
        Call::BranchCommit(snapshot, name) => return builder.set_branch_snapshot(snapshot, &name),
    };
    match update {
        AssignUuid { uuid } => Ok(builder.assign_uuid(uuid)),
        UpgradeFormatVersion { format_version } => builder.upgrade_format_version(format_version),
        SetLocation { location } => Ok(builder.set_location(location)),
        AddSnapshot { snapshot } => builder.add_snapshot(snapshot),
        RemoveSnapshots { snapshot_ids } => Ok(builder.remove_snapshots(&snapshot_ids)),
        SetSnapshotRef {
            ref_name,
            reference,
        } => builder.set_ref(&ref_name, reference),
        RemoveSnapshotRef { ref_name } => Ok(builder.remove_ref(&ref_name)),
        AddSchema { schema } => builder.add_schema(schema),
        SetCurrentSchema { schema_id } => builder.set_current_schema(schema_id),
        RemoveSchemas { schema_ids } => builder.remove_schemas(&schema_ids),
        AddSortOrder { sort_order } => builder.add_sort_order(sort_order),
        SetDefaultSortOrder { sort_order_id } => builder.set_default_sort_order(sort_order_id),
        SetStatistics { statistics } => Ok(builder.set_statistics(statistics)),
        RemoveStatistics { snapshot_id } => Ok(builder.remove_statistics(snapshot_id)),
        SetPartitionStatistics {
            partition_statistics,
        } => Ok(builder.set_partition_statistics(partition_statistics)),
        RemovePartitionStatistics { snapshot_id } => {
            Ok(builder.remove_partition_statistics(snapshot_id))
        }
        AddSpec { spec } => builder.add_partition_spec(spec),
        SetDefaultSpec { spec_id } => builder.set_default_partition_spec(spec_id),
        RemovePartitionSpecs { spec_ids } => builder.remove_partition_specs(&spec_ids),
        _ => not_taken("this update"),
    }
}
