//! What names, types and partition fields are made of, so that they meet again and again.

use crate::case::{
    BUCKET, Bytes, DAY, IDENTITY, LONG, MONTH, SchemaField, TIMESTAMP, YEAR, capacity,
};
use crate::generate::random::Random;

pub struct Pools {
    /// For each field id of the run the field that it mostly is.
    pub fields: Vec<SchemaField>,
    /// Names that fields of schemas have.
    pub field_names: Vec<Bytes>,
    /// Names that partition fields have: some of those, and others.
    pub partition_names: Vec<Bytes>,
    /// The start's schemas have no names.
    pub unnamed: bool,
    /// The start has the only spec that metadata has which is given none.
    pub unpartitioned: bool,
}

impl Pools {
    pub fn new(random: &mut Random, field_ids: &[i32]) -> Self {
        let mut names = field_names(random);
        random.shuffle(&mut names);
        let bare = random.percent(6);
        let mut field_type = || random.one_of(&[LONG, TIMESTAMP]);
        let field = |(id, name): (&i32, &Bytes)| SchemaField {
            id: *id,
            name: name.clone(),
            field_type: field_type(),
        };
        let fields = field_ids.iter().zip(&names).map(field).collect();
        Self {
            fields,
            partition_names: partition_names(random, &names),
            field_names: names,
            unnamed: bare || random.percent(10),
            unpartitioned: bare || random.percent(10),
        }
    }

    /// A bucket's number comes from few.
    pub fn transform(&self, random: &mut Random, source_type: u8) -> (u8, i32) {
        let of_time = [YEAR, YEAR, MONTH, DAY];
        let plain = [IDENTITY, IDENTITY, BUCKET];
        let transform = match source_type == TIMESTAMP && random.percent(70) {
            true => random.one_of(&of_time),
            false => random.one_of(&plain),
        };
        (transform, number(random, transform))
    }
}

/// Of any transform.
pub fn number(random: &mut Random, transform: u8) -> i32 {
    match transform {
        BUCKET => random.one_of(&[4, 4, 8, 1, i32::MAX]),
        _ => 0,
    }
}

/// Plain ones, an empty one, one as long as may be, and at times bytes that are no text.
fn field_names(random: &mut Random) -> Vec<Bytes> {
    let mut names: Vec<Bytes> = ["a", "b", "t", "ts", "y", "p", "", "7"]
        .map(|name| name.as_bytes().to_vec())
        .to_vec();
    names.push(vec![b'n'; capacity::FIELD_NAME]);
    if random.percent(15) {
        names.extend([vec![0], vec![255, 254], vec![128]]);
    }
    names
}

/// A partition name is not empty. Digits are names of fields that have no other.
fn partition_names(random: &mut Random, field_names: &[Bytes]) -> Vec<Bytes> {
    let mut names = random.some_of(4, field_names);
    names.retain(|name| !name.is_empty());
    names.extend(["q", "q1", "q2", "q3", "1", "2", "a_year"].map(|name| name.as_bytes().to_vec()));
    names.push(vec![b'q'; capacity::FIELD_NAME]);
    names
}
