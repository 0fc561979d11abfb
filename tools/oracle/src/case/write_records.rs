//! Writes the records that a case or an answer has in its tables and updates.

use super::*;

impl Line {
    pub(super) fn snapshot(&mut self, s: &Snapshot) -> &mut Self {
        let (first_row, added_rows) = s.rows.value;
        self.number(s.id).flagged(&s.parent);
        self.number(s.sequence).number(s.timestamp_ms);
        self.number(s.rows.present as u8);
        self.number(first_row).number(added_rows)
    }

    pub(super) fn reference(&mut self, r: &Ref) -> &mut Self {
        self.list(capacity::REF_NAME, &r.name);
        self.number(r.snapshot_id).number(r.kind);
        self.flagged(&r.min_snapshots);
        self.flagged(&r.max_snapshot_age_ms);
        self.flagged(&r.max_ref_age_ms)
    }

    pub(super) fn snapshot_log(&mut self, entries: &[SnapshotLogEntry]) -> &mut Self {
        self.counted(capacity::SNAPSHOT_LOG, entries, |line, entry| {
            line.number(entry.snapshot_id).number(entry.timestamp_ms)
        })
    }

    pub fn metadata_log(&mut self, entries: &[MetadataLogEntry]) -> &mut Self {
        self.counted(capacity::METADATA_LOG, entries, |line, entry| {
            line.list(capacity::FILE_NAME, &entry.file);
            line.number(entry.timestamp_ms)
        })
    }

    /// By field ids alone.
    pub(super) fn schema(&mut self, schema: &Schema) -> &mut Self {
        self.number(schema.id);
        self.list(capacity::SCHEMA_FIELDS, &schema.field_ids())
    }

    pub(super) fn named_schema(&mut self, schema: &Schema) -> &mut Self {
        self.number(schema.id);
        self.counted(capacity::SCHEMA_FIELDS, &schema.fields, |line, field| {
            line.number(field.id);
            line.list(capacity::FIELD_NAME, &field.name);
            line.number(field.field_type)
        })
    }

    pub(super) fn order(&mut self, order: &Order) -> &mut Self {
        self.number(order.id);
        self.counted(capacity::ORDER_FIELDS, &order.fields, |line, field| {
            line.number(field.source_id);
            line.number(field.direction).number(field.nulls)
        })
    }

    pub(super) fn statistics_file(&mut self, file: &StatisticsFile) -> &mut Self {
        self.number(file.snapshot_id);
        self.list(capacity::FILE_NAME, &file.path).number(file.size)
    }

    pub(super) fn spec(&mut self, spec: &Spec) -> &mut Self {
        self.number(spec.id);
        self.counted(capacity::SPEC_FIELDS, &spec.fields, |line, field| {
            line.number(field.source_id).flagged(&field.field_id);
            line.list(capacity::FIELD_NAME, &field.name);
            line.number(field.transform).number(field.number)
        })
    }
}
