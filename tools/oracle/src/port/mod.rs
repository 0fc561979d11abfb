//! THE WRAPPER: what document 01 asks of the port, and document 02 after it, and the published code does not say. It reads both in
//! plain Rust around the published builder, and every answer that rests on it says so by an `Own`.

mod current_at;
mod exact_time;
mod formed;
mod formed_specs;
mod leaves;
mod map_order;
mod offices;
mod own;
mod reply;
mod reuse;
mod row_gap;
mod rows_apart;
mod run;
mod steps;
mod texts;
mod tolerance;
mod walk;

pub use current_at::current_at;
pub use formed::{
    list_sum, owner as owner_formed, statistics as statistics_formed, update as update_formed,
};
pub use formed_specs::redundant;
pub use leaves::{bare, limit, row_ids, time_window, trim};
pub use offices::Book;
pub use own::{Own, Owns};
pub use reply::Reply;
pub use reuse::matching_ids;
pub use rows_apart::rows_apart;
pub use run::{Outcome, run};
pub use steps::{Going, begin, close, step};
pub use tolerance::is_another_tolerance;
pub use walk::{WalkOutcome, links, published_walk, table, walk, walk_records};
