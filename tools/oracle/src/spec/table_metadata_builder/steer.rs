//! What the harness sees of a builder between two updates. A child of the published module reaches its private fields.

use super::{TableMetadata, TableMetadataBuilder};

impl TableMetadataBuilder {
    /// The metadata as the updates so far have left it.
    pub fn held(&self) -> &TableMetadata {
        &self.metadata
    }

    /// The run's own last update, if it has one yet.
    pub fn own_last_updated_ms(&self) -> Option<i64> {
        self.last_updated_ms
    }

    /// How many entries the change log has so far.
    pub fn logged(&self) -> usize {
        self.changes.len()
    }

    /// The metadata and the run's own last update, for `port::exact_time`, `port::map_order` and `port::row_gap` to steer by.
    pub fn steered(&mut self) -> (&mut TableMetadata, &mut Option<i64>) {
        (&mut self.metadata, &mut self.last_updated_ms)
    }
}
