//! Compares the linked functions with a plain reading of the rules, on boundary and random input.
//! `compare [SEED]`; the status is 1 where a difference was found, 2 where SEED is no number from 1 to 2^64 - 1: random numbers from 0 would
//! all be 0.

use register::{limit, limit_of_no_text, row_check, too_early, RowCheck, DEFAULT_TOLERANCE_MS};

/// Document 01: "optional `+`, at least one digit, nothing else, at most 2^64 - 1; otherwise 100; never below 1".
fn limit_rule(text: &[u8]) -> u64 {
    let digits = text.strip_prefix(b"+").unwrap_or(text);
    if digits.is_empty() || !digits.iter().all(u8::is_ascii_digit) {
        return 100;
    }
    let written = &digits[digits.iter().take_while(|&&b| b == b'0').count()..];
    if written.len() > 20 {
        return 100;
    }
    let number = written
        .iter()
        .fold(0u128, |v, b| v * 10 + u128::from(b - b'0'));
    u64::try_from(number).map_or(100, |n| n.max(1))
}

/// The published Rust: the text is parsed, 100 stands in, and the limit is at least 1.
fn limit_published(text: &[u8]) -> u64 {
    std::str::from_utf8(text)
        .ok()
        .and_then(|t| t.parse::<u64>().ok())
        .unwrap_or(100)
        .max(1)
}

/// Document 01: "time + 60,000 < last", in exact whole numbers. Document 02, request (v): the tolerance is given, "default 60,000".
fn too_early_rule(time: i64, last: i64, tolerance: i64) -> bool {
    i128::from(time) + i128::from(tolerance) < i128::from(last)
}

/// Document 01: 9 if the first row id is below the next. Document 02, request (iv): then the next becomes first row id plus added rows,
/// and 11 if that sum passes 2^64 - 1.
fn row_check_rule(next: u64, first: u64, added: u64) -> RowCheck {
    match u64::try_from(u128::from(first) + u128::from(added)) {
        _ if first < next => RowCheck { number: 9, next },
        Err(_) => RowCheck { number: 11, next },
        Ok(end) => RowCheck {
            number: 0,
            next: end,
        },
    }
}

struct Random(u64);

impl Random {
    fn next(&mut self) -> u64 {
        self.0 ^= self.0 << 13;
        self.0 ^= self.0 >> 7;
        self.0 ^= self.0 << 17;
        self.0
    }

    fn below(&mut self, n: u64) -> u64 {
        self.next() % n
    }

    /// A number of any size, with the small ones and those near the ends as likely as the rest.
    fn number(&mut self) -> u64 {
        let n = self.next() >> self.below(64);
        match self.below(4) {
            0 => n,
            1 => n.wrapping_neg(),
            2 => (1 << 63) ^ n,
            _ => self.next(),
        }
    }

    fn text(&mut self) -> Vec<u8> {
        let digits = |r: &mut Random, n: u64| {
            (0..n)
                .map(|_| b'0' + r.below(10) as u8)
                .collect::<Vec<u8>>()
        };
        let mut text = match self.below(6) {
            0 => self.number().to_string().into_bytes(),
            1 => (u128::from(u64::MAX) - 20 + u128::from(self.below(41)))
                .to_string()
                .into_bytes(),
            2 => {
                let n = 1 + self.below(24);
                digits(self, n)
            }
            3 => {
                let n = self.below(6);
                (0..n).map(|_| self.next() as u8).collect()
            }
            4 => {
                let zeros = self.below(3000) as usize;
                let n = self.below(22);
                let mut text = vec![b'0'; zeros];
                text.extend(digits(self, n));
                text
            }
            _ => {
                let n = self.below(8);
                (0..n)
                    .map(|_| b"+-0159 _e."[self.below(10) as usize])
                    .collect()
            }
        };
        if self.below(4) == 0 {
            text.insert(0, b'+');
        }
        if self.below(8) == 0 && !text.is_empty() {
            let at = self.below(text.len() as u64) as usize;
            text[at] = self.next() as u8;
        }
        text
    }
}

#[derive(Default)]
struct Tally {
    compared: u64,
    differences: u64,
}

impl Tally {
    fn same<T: PartialEq + std::fmt::Debug>(
        &mut self,
        input: &dyn std::fmt::Debug,
        linked: T,
        rule: T,
    ) {
        self.compared += 1;
        if linked != rule {
            self.differences += 1;
            if self.differences <= 10 {
                println!("differs at {input:?}: linked {linked:?}, rule {rule:?}");
            }
        }
    }
}

fn limits(random: &mut Random, tally: &mut Tally) {
    let mut numbers = 0;
    let mut one = |text: &[u8]| {
        let rule = limit_rule(text);
        numbers += u64::from(rule != 100);
        tally.same(
            &String::from_utf8_lossy(text),
            [limit(text); 2],
            [rule, limit_published(text)],
        );
    };
    one(b"");
    for a in 0..=255 {
        one(&[a]);
        for b in 0..=255 {
            one(&[a, b]);
        }
    }
    for _ in 0..1_200_000 {
        one(&random.text());
    }
    tally.same(&"no text", limit_of_no_text(), limit_rule(b""));
    println!(
        "{} limit texts, {} with another limit than 100",
        tally.compared, numbers
    );
}

/// The ends of 64 bits, those of a run's tolerance, and what lies beside both, the default and the times of the examples.
const MOMENTS: [i64; 25] = [
    i64::MIN,
    i64::MIN + 1,
    i64::MIN + 60_000,
    i64::MIN + 3_600_000,
    -3_600_001,
    -3_600_000,
    -60_001,
    -60_000,
    -59_999,
    -1,
    0,
    1,
    39_999,
    40_000,
    59_999,
    60_000,
    60_001,
    100_000,
    3_599_999,
    3_600_000,
    3_600_001,
    i64::MAX - 3_600_000,
    i64::MAX - 60_000,
    i64::MAX - 1,
    i64::MAX,
];

fn windows(random: &mut Random, tally: &mut Tally) {
    let mut early = 0;
    let mut one = |time: i64, last: i64, tolerance: i64| {
        let rule = too_early_rule(time, last, tolerance);
        early += u64::from(rule);
        let linked = too_early(time, last, tolerance);
        tally.same(&(time, last, tolerance), linked, rule);
    };
    for time in MOMENTS {
        for last in MOMENTS {
            for tolerance in MOMENTS {
                one(time, last, tolerance);
            }
        }
    }
    for _ in 0..300_000 {
        let [time, last, any] = [(); 3].map(|()| random.number() as i64);
        let given = random.below(3_600_001) as i64;
        for tolerance in [DEFAULT_TOLERANCE_MS, given, any] {
            let beside = random.below(7) as i64 - 3;
            one(time, last, tolerance);
            one(
                time,
                time.wrapping_add(tolerance).wrapping_add(beside),
                tolerance,
            );
        }
    }
    println!("{} windows, {} too early", tally.compared, early);
    tally.same(&"the default tolerance", DEFAULT_TOLERANCE_MS, 60_000);
}

fn rows(random: &mut Random, tally: &mut Tally) {
    let mut numbers = [0u64; 12];
    let mut gaps = 0;
    let mut one = |next: u64, first: u64, added: u64| {
        let rule = row_check_rule(next, first, added);
        numbers[usize::from(rule.number)] += 1;
        gaps += u64::from(first > next);
        tally.same(&(next, first, added), row_check(next, first, added), rule);
    };
    let ends = [
        0,
        1,
        9,
        10,
        11,
        1 << 63,
        u64::MAX - 11,
        u64::MAX - 10,
        u64::MAX - 9,
        u64::MAX - 1,
        u64::MAX,
    ];
    for next in ends {
        for first in ends {
            for added in ends {
                one(next, first, added);
            }
        }
    }
    for _ in 0..400_000 {
        let (next, first) = (random.number(), random.number());
        one(next, first, random.number());
        let first = next.saturating_add(random.next() >> random.below(64));
        one(
            next,
            first,
            (u64::MAX - first)
                .wrapping_add(random.below(5))
                .wrapping_sub(2),
        );
        one(
            next,
            next.wrapping_add(random.below(3)).wrapping_sub(1),
            random.below(100),
        );
    }
    println!(
        "{} row checks, {} accepted, {} with 9, {} with 11; {} start above the next row id",
        tally.compared, numbers[0], numbers[9], numbers[11], gaps
    );
}

fn main() {
    let given = std::env::args().nth(1);
    let seed = given.as_deref().map_or(Ok(20_240_607), str::parse);
    let Ok(seed @ 1..) = seed else {
        eprintln!("compare: SEED is a number from 1 to 2^64 - 1");
        std::process::exit(2);
    };
    let mut random = Random(seed);
    let mut all = Tally::default();
    for part in [limits, windows, rows] {
        let mut tally = Tally::default();
        part(&mut random, &mut tally);
        all.compared += tally.compared;
        all.differences += tally.differences;
    }
    println!(
        "{} cases compared, differences: {}",
        all.compared, all.differences
    );
    std::process::exit(i32::from(all.differences > 0));
}
