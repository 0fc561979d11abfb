//! The capacities, in document 01's order.

pub const SNAPSHOTS: usize = 64;
pub const REFS: usize = 16;
pub const SNAPSHOT_LOG: usize = 128;
pub const METADATA_LOG: usize = 128;
pub const SCHEMAS: usize = 16;
pub const SCHEMA_FIELDS: usize = 32;
pub const ORDERS: usize = 16;
pub const ORDER_FIELDS: usize = 8;
/// Of a schema's field and of a partition field, by document 02.
pub const FIELD_NAME: usize = 32;
pub const SPECS: usize = 16;
pub const SPEC_FIELDS: usize = 8;
/// Of each of the two tables, by document 02.
pub const STATISTICS: usize = 32;
pub const REMOVAL_IDS: usize = 16;
pub const REF_NAME: usize = 32;
pub const LOCATION: usize = 96;
/// Also of a statistics file's path.
pub const FILE_NAME: usize = 96;
/// The updates of a list count 1 each, a branch commit 2.
pub const LIST_SUM: usize = 64;
/// Entries of a walk's two lists.
pub const WALK: usize = 64;
/// The case format's own bound on a walk's buffer.
pub const WALK_BUFFER: u64 = 80;
