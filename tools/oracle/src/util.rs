//! The published `util/snapshot.rs`, unchanged, over the stand-ins of `crate::spec`.

pub mod snapshot {
    include!(concat!(env!("ICEBERG_SRC"), "/src/util/snapshot.rs"));
}
