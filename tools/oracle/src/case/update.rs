//! The updates, by kind.

use super::{Bytes, Order, Ref, Schema, Snapshot, Spec, StatisticsFile};

#[derive(Debug, Clone, PartialEq)]
pub enum Update {
    AssignUuid([u8; 16]),
    UpgradeFormatVersion(u8),
    SetLocation(Bytes),
    AddSnapshot(Snapshot),
    SetBranchSnapshot(Bytes, Snapshot),
    RemoveSnapshots(Vec<i64>),
    SetRef(Ref),
    RemoveRef(Bytes),
    AddSchema(Schema),
    /// The same update, written with the names and types of its fields.
    AddNamedSchema(Schema),
    SetCurrentSchema(i32),
    RemoveSchemas(Vec<i32>),
    AddSortOrder(Order),
    SetDefaultSortOrder(i64),
    SetStatistics(StatisticsFile),
    RemoveStatistics(i64),
    SetPartitionStatistics(StatisticsFile),
    RemovePartitionStatistics(i64),
    AddPartitionSpec(Spec),
    SetDefaultPartitionSpec(i32),
    RemovePartitionSpecs(Vec<i32>),
    UnknownKind(u8),
}

impl Update {
    pub fn kind(&self) -> u8 {
        match self {
            Self::AssignUuid(_) => 1,
            Self::UpgradeFormatVersion(_) => 2,
            Self::SetLocation(_) => 3,
            Self::AddSnapshot(_) => 4,
            Self::SetBranchSnapshot(..) => 5,
            Self::RemoveSnapshots(_) => 6,
            Self::SetRef(_) => 7,
            Self::RemoveRef(_) => 8,
            Self::AddSchema(_) => 9,
            Self::SetCurrentSchema(_) => 10,
            Self::RemoveSchemas(_) => 11,
            Self::AddSortOrder(_) => 12,
            Self::SetDefaultSortOrder(_) => 13,
            Self::SetStatistics(_) => 14,
            Self::RemoveStatistics(_) => 15,
            Self::SetPartitionStatistics(_) => 16,
            Self::RemovePartitionStatistics(_) => 17,
            Self::AddPartitionSpec(_) => 18,
            Self::SetDefaultPartitionSpec(_) => 19,
            Self::RemovePartitionSpecs(_) => 20,
            Self::AddNamedSchema(_) => 21,
            Self::UnknownKind(kind) => *kind,
        }
    }

    pub fn is_of_statistics(&self) -> bool {
        (14..=17).contains(&self.kind())
    }

    /// Of partition specs, or of a schema with names.
    pub fn is_of_specs(&self) -> bool {
        (18..=21).contains(&self.kind())
    }

    /// The snapshot that it adds, if it does.
    pub fn added(&self) -> Option<&Snapshot> {
        match self {
            Self::AddSnapshot(added) | Self::SetBranchSnapshot(_, added) => Some(added),
            _ => None,
        }
    }

    /// The schema that it offers, if it does.
    pub fn offered_schema(&self) -> Option<&Schema> {
        match self {
            Self::AddSchema(offered) | Self::AddNamedSchema(offered) => Some(offered),
            _ => None,
        }
    }
}
