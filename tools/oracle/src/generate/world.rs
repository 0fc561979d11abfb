//! What the records of one case are made of. The pools are small, so that ids, names and fields meet again and again.

use super::random::Random;
use super::specs;
use crate::case::{Bytes, More, Terms, capacity};

pub struct World {
    pub time: i64,
    pub terms: Terms,
    /// Times lie anywhere in 64 bits.
    pub far: bool,
    /// Row ranges may start above the next row id.
    pub gaps: bool,
    /// Updates are often of statistics files.
    pub statistics: bool,
    /// Two offices share the metadata.
    pub offices: bool,
    /// What partition specs and named schemas are made of, if the run is about them.
    pub specs: Option<specs::Pools>,
    pub snapshot_ids: Vec<i64>,
    pub ref_names: Vec<Bytes>,
    pub field_ids: Vec<i32>,
}

impl World {
    /// The world of a run that is given this.
    pub fn new(random: &mut Random, more: &More) -> Self {
        let ends = [i64::MAX - 200_000, i64::MIN + 200_000];
        let time = match random.below(100) {
            0..78 => random.one_of(&[100_000, 1_700_000_000_000]),
            78..92 => random.one_of(&[0, -100_000, -100_000]),
            _ => random.one_of(&ends),
        };
        let mut world = Self {
            time,
            terms: more.terms(),
            far: random.percent(8),
            gaps: random.percent(30),
            statistics: more.has_statistics(),
            offices: more.has_offices(),
            specs: None,
            snapshot_ids: snapshot_ids(random),
            ref_names: ref_names(random),
            field_ids: field_ids(random),
        };
        if more.has_specs() {
            world.specs = Some(specs::Pools::new(random, &world.field_ids));
        }
        world
    }

    /// A time near the world's, or anywhere.
    pub fn any_time(&self, random: &mut Random) -> i64 {
        let ends = [
            i64::MIN,
            i64::MIN + 1,
            -1 - self.terms.tolerance,
            -2,
            0,
            i64::MAX,
        ];
        match self.far && random.percent(40) {
            true => random.one_of(&ends),
            false => self.time.saturating_add(random.one_of(&self.nearby())),
        }
    }

    /// Differences that lie on the tolerance and beside it.
    fn nearby(&self) -> [i64; 12] {
        let [below, at, above] = [-1, 0, 1].map(|beside| self.terms.tolerance + beside);
        [
            -above, -at, -below, -1000, -1, 0, 0, 1, 1000, below, at, above,
        ]
    }
}

fn snapshot_ids(random: &mut Random) -> Vec<i64> {
    let small: Vec<i64> = (0..14).collect();
    let count = 3 + random.below(9);
    let mut ids = random.some_of(count, &small);
    if random.percent(15) {
        ids.extend([i64::MAX - 1, i64::MAX]);
    }
    ids
}

/// `main`, names beside it in byte order, names at both ends of the length, bytes that are no text, and plain ones.
fn ref_names(random: &mut Random) -> Vec<Bytes> {
    let mut odd: Vec<Bytes> = ["m", "mai", "maim", "main2", "", "a", "dev", "v1.0"]
        .map(|name| name.as_bytes().to_vec())
        .to_vec();
    odd.extend([vec![0], vec![255, 254], b"main\0".to_vec()]);
    odd.extend([capacity::REF_NAME - 1, capacity::REF_NAME].map(|length| vec![b'n'; length]));
    let count = 1 + random.below(5);
    let mut names = random.some_of(count, &odd);
    names.push(b"main".to_vec());
    names
}

fn field_ids(random: &mut Random) -> Vec<i32> {
    let small: Vec<i32> = (1..9).collect();
    let count = 2 + random.below(5);
    let mut ids = random.some_of(count, &small);
    if random.percent(15) {
        ids.push(random.one_of(&[1000, i32::MAX]));
    }
    ids
}
