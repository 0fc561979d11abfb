//! The way into the published code and back: records to stand-in types, updates to builder calls, answers to records and numbers.

pub mod apply;
pub mod from_published;
pub mod number;
pub mod to_published;
