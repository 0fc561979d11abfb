//! The published `spec/table_metadata_builder.rs`, unchanged, over the stand-ins beside this file.

use crate::{chrono, uuid};

mod steer;

include!(concat!(
    env!("ICEBERG_SRC"),
    "/src/spec/table_metadata_builder.rs"
));
