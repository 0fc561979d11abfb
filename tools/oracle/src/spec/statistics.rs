//! Stand-in for statistics files: what document 02 takes of them. The published builder looks at their snapshot ids alone.

#[derive(Debug, Clone, PartialEq)]
pub struct StatisticsFile {
    pub snapshot_id: i64,
    pub statistics_path: String,
    pub file_size_in_bytes: i64,
}

/// The crate has another type for these; what is taken of it is the same.
pub type PartitionStatisticsFile = StatisticsFile;
