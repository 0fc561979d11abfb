//! What a run and its steps come to.

use super::steps::Going;
use crate::case::{Metadata, MetadataLogEntry, Update};
use crate::spec::table_metadata_builder::TableMetadataBuilder;

/// What an accepted run answers.
#[derive(Debug, PartialEq)]
pub struct Accepted {
    pub metadata: Metadata,
    pub log: Vec<Update>,
    pub expired: Vec<MetadataLogEntry>,
}

/// The answer, or the number and place of the refusal.
pub type Reply = Result<Accepted, (u8, usize)>;

/// The run after an update, or the refusal's number.
pub type Step = Result<Going, u8>;

/// The same of the published builder.
pub type Built = Result<TableMetadataBuilder, u8>;
