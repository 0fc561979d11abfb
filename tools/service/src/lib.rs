//! The register's proved functions, as the catalogue service calls them: safe, and by value.

mod linked {
    // crates/exports/include/register.h says the same in C.
    extern "C" {
        pub fn register_limit(text: *const u8, length: usize) -> u64;
        pub fn register_too_early(time: i64, last: i64, tolerance: i64) -> bool;
        pub fn register_row_check(next: u64, first: u64, added: u64) -> super::RowCheck;
    }
}

/// The tolerance of a run that is given none, in milliseconds: `REGISTER_DEFAULT_TOLERANCE_MS` of the header.
pub const DEFAULT_TOLERANCE_MS: i64 = 60_000;

/// The answer to a row range.
#[repr(C)]
#[derive(Clone, Copy, Debug, PartialEq, Eq)]
pub struct RowCheck {
    /// 0 accepted, 9 first row id below next row id, 11 the range would end above 2^64 - 1.
    pub number: u8,
    /// The next row id from then on, first + added; on a refusal the one that came in.
    pub next: u64,
}

/// The limit of the metadata log, from the text of its property.
pub fn limit(text: &[u8]) -> u64 {
    // SAFETY: a slice's pointer and length stand for readable bytes, of which the function keeps none.
    unsafe { linked::register_limit(text.as_ptr(), text.len()) }
}

/// The limit where the property is not set.
pub fn limit_of_no_text() -> u64 {
    // SAFETY: of a length of 0 nothing is read, so there need be no bytes.
    unsafe { linked::register_limit(std::ptr::null(), 0) }
}

/// Whether `time` is before `last` by more than `tolerance`, all in milliseconds.
pub fn too_early(time: i64, last: i64, tolerance: i64) -> bool {
    // SAFETY: any three numbers may be passed.
    unsafe { linked::register_too_early(time, last, tolerance) }
}

/// Checks a snapshot's rows against the next row id.
pub fn row_check(next: u64, first: u64, added: u64) -> RowCheck {
    // SAFETY: any three numbers may be passed.
    unsafe { linked::register_row_check(next, first, added) }
}
