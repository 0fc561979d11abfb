//! Breaks one rule for well-formed specs and named schemas, and leaves the rest as it is.

use crate::case::{
    BUCKET, Flagged, IDENTITY, MONTH, Metadata, PartitionField, Schema, SchemaField, Spec, YEAR,
    capacity,
};
use crate::generate::damage::{table, too_long};
use crate::generate::random::Random;

/// Damages the specs or the schemas of metadata.
pub fn damage_start(random: &mut Random, m: &mut Metadata) {
    match random.below(10) {
        0..5 => table(random, &mut m.specs, capacity::SPECS, held_spec, |s, i| {
            s.id = i as i32
        }),
        5..8 => table(
            random,
            &mut m.schemas,
            capacity::SCHEMAS,
            damage_schema,
            |s, i| s.id = i as i32,
        ),
        8 => m.default_spec_id = random.one_of(&[-1, 77, i32::MIN]),
        _ if random.percent(80) => m.last_partition_id = random.one_of(&[-1, i32::MIN]),
        _ => m.specs.clear(),
    }
    // Where there are too many, that alone is at fault.
    if m.specs.len() > capacity::SPECS {
        m.default_spec_id = m.specs[0].id;
    }
    if m.schemas.len() > capacity::SCHEMAS {
        m.current_schema_id = m.schemas[0].id;
    }
}

pub fn damage_schema(random: &mut Random, s: &mut Schema) {
    s.fields
        .resize(s.fields.len().max(2), SchemaField::unnamed(1));
    let [first, second] = [s.fields[0].clone(), SchemaField::unnamed(40)];
    let last = s.fields.last_mut().expect("it has fields");
    match random.below(7) {
        0 => s.id = random.one_of(&[-1, i32::MIN]),
        1 => last.id = random.one_of(&[0, -1]),
        2 => last.id = first.id,
        3 => {
            last.id = second.id;
            last.name = first.name;
        }
        4 => too_long(random, &mut last.name, capacity::FIELD_NAME),
        5 => last.field_type = random.one_of(&[0, 3, 255]),
        _ => *s = Schema::unnamed(s.id, 1..=capacity::SCHEMA_FIELDS as i32 + 1),
    }
}

/// What makes an offer ill formed, and a held spec too.
pub fn damage_offer(random: &mut Random, s: &mut Spec) {
    s.fields.resize(s.fields.len().max(1), plain(1, 1, b"x"));
    let last = s.fields.last_mut().expect("it has fields");
    match random.below(10) {
        0 => s.id = random.one_of(&[-1, i32::MIN]),
        1 => last.source_id = random.one_of(&[0, -1]),
        2 => last.field_id = Flagged::of(Some(random.one_of(&[0, -1]))),
        3 => {
            last.field_id = Flagged {
                present: false,
                value: 1000,
            }
        }
        4 => last.name.clear(),
        5 => too_long(random, &mut last.name, capacity::FIELD_NAME),
        6 => last.transform = random.one_of(&[0, 6, 255]),
        7 => (last.transform, last.number) = (BUCKET, random.one_of(&[0, -1, i32::MIN])),
        8 => (last.transform, last.number) = (random.one_of(&[IDENTITY, YEAR]), 4),
        _ => {
            let fields = 1..=capacity::SPEC_FIELDS as i32 + 1;
            let field = |i: i32| plain(i, 1000 + i, format!("x{i}").as_bytes());
            s.fields = fields.map(field).collect();
        }
    }
}

/// Of a held spec also: names, ids or pairs twice, or no id.
fn held_spec(random: &mut Random, s: &mut Spec) {
    let twice = |a: PartitionField, b: PartitionField| vec![a, b];
    match random.below(10) {
        0 => s.fields = twice(plain(1, 1000, b"x"), plain(2, 1001, b"x")),
        1 => s.fields = twice(plain(1, 1000, b"x"), plain(2, 1000, b"z")),
        2 => s.fields = twice(plain(1, 1000, b"x"), plain(1, 1001, b"z")),
        3 => {
            s.fields = twice(plain(1, 1000, b"x"), plain(1, 1001, b"z"));
            s.fields[0].transform = YEAR;
            s.fields[1].transform = MONTH;
        }
        4 => {
            s.fields.truncate(1);
            s.fields.resize(1, plain(1, 1000, b"x"));
            s.fields[0].field_id = Flagged::of(None);
        }
        _ => damage_offer(random, s),
    }
}

/// An identity.
fn plain(source_id: i32, field_id: i32, name: &[u8]) -> PartitionField {
    PartitionField {
        source_id,
        field_id: Flagged::of(Some(field_id)),
        name: name.to_vec(),
        transform: IDENTITY,
        number: 0,
    }
}
