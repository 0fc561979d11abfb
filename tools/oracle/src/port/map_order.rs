//! The published search for an equal schema, order or spec takes the first in its map's order, documents 01 and 02 the smallest id. Where
//! several are equal the map is made anew, with another order, until the smallest comes first: the builder's own pick, and all
//! that follows from it, is then theirs.

use std::collections::HashMap;
use std::hash::Hash;

use crate::case::Update;
use crate::published::to_published as to;
use crate::spec::table_metadata_builder::TableMetadataBuilder;

/// Says whether the update offers what several held ones equal, and steers the builder's pick among these.
pub fn steer_pick(builder: &mut TableMetadataBuilder, update: &Update) -> bool {
    let (metadata, _) = builder.steered();
    match update {
        Update::AddSchema(offered) | Update::AddNamedSchema(offered) => {
            let offered = to::schema(offered);
            put_smallest_first(&mut metadata.schemas, |s| offered.is_same_schema(s))
        }
        Update::AddSortOrder(offered) if !offered.fields.is_empty() => {
            let offered = to::sort_order(offered);
            put_smallest_first(&mut metadata.sort_orders, |o| o.fields == offered.fields)
        }
        Update::AddPartitionSpec(offered) => {
            let offered = to::spec(offered);
            put_smallest_first(&mut metadata.partition_specs, |s| {
                offered.is_compatible_with(s)
            })
        }
        _ => false,
    }
}

fn put_smallest_first<K: Copy + Ord + Hash, V>(
    map: &mut HashMap<K, V>,
    equal: impl Fn(&V) -> bool,
) -> bool {
    let keys = |map: &HashMap<K, V>| -> Vec<K> {
        let equals = map.iter().filter(|(_, value)| equal(value));
        equals.map(|(key, _)| *key).collect()
    };
    let mut equals = keys(map);
    let several = equals.len() > 1;
    // A map made anew has another hasher, hence another order: of n equal ones the smallest is first once in n times.
    while several && equals.first() != equals.iter().min() {
        *map = std::mem::take(map).into_iter().collect();
        equals = keys(map);
    }
    several
}
