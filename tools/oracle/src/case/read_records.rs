//! Reads the records that a case has in its tables and updates.

use std::io::BufRead;

use super::read::Read;
use super::*;

impl<R: BufRead> CaseReader<R> {
    pub(super) fn snapshot(&mut self) -> Read<Snapshot> {
        Ok(Snapshot {
            id: self.number()?,
            parent: self.flagged()?,
            sequence: self.number()?,
            timestamp_ms: self.number()?,
            rows: Flagged {
                present: self.flag()?,
                value: (self.number()?, self.number()?),
            },
        })
    }

    pub(super) fn reference(&mut self) -> Read<Ref> {
        Ok(Ref {
            name: self.bytes()?,
            snapshot_id: self.number()?,
            kind: self.number()?,
            min_snapshots: self.flagged()?,
            max_snapshot_age_ms: self.flagged()?,
            max_ref_age_ms: self.flagged()?,
            owner: OFFICE_1,
        })
    }

    pub(super) fn snapshot_log_entry(&mut self) -> Read<SnapshotLogEntry> {
        Ok(SnapshotLogEntry {
            snapshot_id: self.number()?,
            timestamp_ms: self.number()?,
        })
    }

    pub(super) fn metadata_log_entry(&mut self) -> Read<MetadataLogEntry> {
        Ok(MetadataLogEntry {
            file: self.bytes()?,
            timestamp_ms: self.number()?,
        })
    }

    /// By field ids alone.
    pub(super) fn schema(&mut self) -> Read<Schema> {
        let id = self.number()?;
        Ok(Schema::unnamed(id, self.counted(Self::number)?))
    }

    pub(super) fn named_schema(&mut self) -> Read<Schema> {
        Ok(Schema {
            id: self.number()?,
            fields: self.counted(Self::schema_field)?,
        })
    }

    fn schema_field(&mut self) -> Read<SchemaField> {
        Ok(SchemaField {
            id: self.number()?,
            name: self.bytes()?,
            field_type: self.number()?,
        })
    }

    pub(super) fn order(&mut self) -> Read<Order> {
        Ok(Order {
            id: self.number()?,
            fields: self.counted(Self::sort_field)?,
        })
    }

    fn sort_field(&mut self) -> Read<SortField> {
        Ok(SortField {
            source_id: self.number()?,
            direction: self.number()?,
            nulls: self.number()?,
        })
    }

    pub(super) fn statistics_file(&mut self) -> Read<StatisticsFile> {
        Ok(StatisticsFile {
            snapshot_id: self.number()?,
            path: self.bytes()?,
            size: self.number()?,
        })
    }

    pub(super) fn spec(&mut self) -> Read<Spec> {
        Ok(Spec {
            id: self.number()?,
            fields: self.counted(Self::partition_field)?,
        })
    }

    fn partition_field(&mut self) -> Read<PartitionField> {
        Ok(PartitionField {
            source_id: self.number()?,
            field_id: self.flagged()?,
            name: self.bytes()?,
            transform: self.number()?,
            number: self.number()?,
        })
    }
}
