//! Times the proved reader of update lists as JSON against serde_json on the same texts, in one process.
mod files;
mod memory;
mod texts;

use serde::de::IgnoredAny;
use serde_json::Value;
use std::hint::black_box;
use std::time::Instant;
use texts::Text;

#[global_allocator]
static ALLOCATOR: memory::Counted = memory::Counted;

/// What the reader answers: 0, 27, 28 or 29 and the place of a refusal; how many updates the list has, and the kind of the last.
#[repr(C)]
#[derive(Clone, Copy)]
struct Read {
    number: u8,
    count: u8,
    kind: u8,
    place: usize,
}

extern "C" {
    fn json_updates(text: *const u8, length: usize, part: usize, offers: *mut u8) -> Read;
}

/// The room for the bytes that updates offer: records::capacities::OFFERS.
const OFFERS: usize = 77_824;
type Lent = [u8; OFFERS];

/// Reads a text in parts of a length; 0: at once.
fn ours(text: &[u8], part: usize, lent: &mut Lent) -> Read {
    // SAFETY: a slice's pointer and length stand for readable bytes; the room is as long as the function says, and lent to this call alone.
    // The function keeps no pointer.
    unsafe { json_updates(text.as_ptr(), text.len(), part, lent.as_mut_ptr()) }
}

const READERS: [&str; 5] = [
    "ours",
    "ours, parts of 4096",
    "ours, parts of 64",
    "serde_json, tree",
    "serde_json, thrown away",
];
const PARTS: [usize; 3] = [0, 4096, 64];
const OURS: usize = 0;
const TREE: usize = 3;

/// What a reader leaves: a tree is given up after the clock was stopped.
fn read(reader: usize, text: &[u8], lent: &mut Lent) -> Option<Value> {
    match reader {
        TREE => serde_json::from_slice::<Value>(black_box(text)).ok(),
        _ if reader < TREE => {
            black_box(ours(black_box(text), PARTS[reader], lent));
            black_box(&lent);
            None
        }
        _ => {
            black_box(serde_json::from_slice::<IgnoredAny>(black_box(text)).is_ok());
            None
        }
    }
}

/// Both sides read the text, in the parts that are timed, and serde_json finds as many updates as were written. Cut short by a byte, both refuse it.
fn check(text: &Text) -> Result<(), String> {
    let (name, bytes) = (&text.name, &text.bytes);
    let mut lent = [0; OFFERS];
    for part in [0, 4096, 64] {
        let whole = ours(bytes, part, &mut lent);
        if (whole.number, whole.place, whole.count as usize, whole.kind)
            != (0, 0, text.updates, text.last)
        {
            return Err(format!(
                "{name} in parts of {part}: our number is {} at {}, of {} updates",
                whole.number, whole.place, whole.count
            ));
        }
        let short = ours(&bytes[..bytes.len() - 1], part, &mut lent);
        if (short.number, short.place, short.count) != (27, bytes.len() - 1, 0) {
            return Err(format!(
                "{name} without its last byte, in parts of {part}: our number is {} at {}",
                short.number, short.place
            ));
        }
    }
    let value: Value = serde_json::from_slice(bytes)
        .map_err(|error| format!("{name}: serde_json says {error}"))?;
    if value.as_array().map(Vec::len) != Some(text.updates) {
        return Err(format!(
            "{name}: serde_json finds another number of updates than {}",
            text.updates
        ));
    }
    serde_json::from_slice::<IgnoredAny>(bytes)
        .map_err(|error| format!("{name}: serde_json says {error}"))?;
    match serde_json::from_slice::<Value>(&bytes[..bytes.len() - 1]) {
        Ok(_) => Err(format!("{name} without its last byte: serde_json reads it")),
        Err(_) => Ok(()),
    }
}

/// Nanoseconds a byte of each reader: the least of the rounds, in each of which every reader has its turn.
fn time(text: &Text, rounds: usize) -> [f64; READERS.len()] {
    let mut least = [f64::INFINITY; READERS.len()];
    let mut lent = [0; OFFERS];
    for _ in 0..rounds {
        for (reader, least) in least.iter_mut().enumerate() {
            let start = Instant::now();
            let left = read(reader, &text.bytes, &mut lent);
            let elapsed = start.elapsed();
            drop(black_box(left));
            *least = least.min(elapsed.as_nanos() as f64);
        }
    }
    least.map(|nanoseconds| nanoseconds / text.bytes.len() as f64)
}

/// So many rounds that each reader gets about 40 MB, but at least 15 and at most 2000.
fn rounds_of(text: &Text, asked: Option<usize>) -> usize {
    asked.unwrap_or((40_000_000 / text.bytes.len()).clamp(15, 2000))
}

fn row(text: &Text, times: &[f64; READERS.len()]) -> String {
    let cells: Vec<String> = times.iter().map(|time| format!("{time:.2}")).collect();
    format!(
        "| {} | {} | {} | {} | **{:.2}** |",
        text.name,
        text.updates,
        text.bytes.len(),
        cells.join(" | "),
        times[OURS] / times[TREE]
    )
}

fn memory_row(text: &Text) -> String {
    let bytes = &text.bytes;
    let told =
        |stack: Option<usize>| stack.map_or("?".into(), |kilobytes| format!("{kilobytes} kB"));
    let mut lent = [0; OFFERS];
    let held =
        [OURS, TREE].map(|reader| memory::allocated(|| drop(read(reader, bytes, &mut lent))));
    let touched =
        [OURS, TREE].map(|reader| told(memory::stack(|| drop(read(reader, bytes, &mut lent)))));
    format!(
        "| {} | {} | {} | {} | {} |",
        text.name, held[0], touched[0], held[1], touched[1]
    )
}

fn measure(asked: Option<usize>) -> Result<(), String> {
    let texts = texts::all();
    texts.iter().try_for_each(check)?;
    println!(
        "Nanoseconds a byte, the least of the rounds; ratio: ours at once to serde_json's tree.\n"
    );
    println!(
        "| text | updates | bytes | {} | ratio |\n|{}",
        READERS.join(" | "),
        "---|".repeat(READERS.len() + 4)
    );
    for text in &texts {
        println!("{}", row(text, &time(text, rounds_of(text, asked))));
    }
    println!("\nMemory: bytes allocated at most, and stack touched.\n");
    println!("| text | ours | ours, stack | tree | tree, stack |\n|---|---|---|---|---|");
    for text in &texts {
        println!("{}", memory_row(text));
    }
    files::measure(asked)
}

/// One reader on one text again and again, for a profiler.
fn only(reader: &str, name: &str, rounds: &str) -> Result<(), String> {
    let reader = reader
        .parse()
        .ok()
        .filter(|reader| *reader < READERS.len())
        .ok_or(format!("READER is a number below {}", READERS.len()))?;
    let rounds: usize = rounds.parse().map_err(|_| "ROUNDS is a number")?;
    let text = texts::all()
        .into_iter()
        .find(|text| text.name == name)
        .ok_or(format!("there is no text {name}"))?;
    let mut lent = [0; OFFERS];
    for _ in 0..rounds {
        black_box(read(reader, &text.bytes, &mut lent));
    }
    Ok(())
}

fn write(name: &str) -> Result<(), String> {
    let text = texts::all()
        .into_iter()
        .find(|text| text.name == name)
        .ok_or(format!("there is no text {name}"))?;
    std::io::Write::write_all(&mut std::io::stdout(), &text.bytes)
        .map_err(|error| error.to_string())
}

fn main() {
    let words: Vec<String> = std::env::args().skip(1).collect();
    let words: Vec<&str> = words.iter().map(String::as_str).collect();
    let done = match words[..] {
        [] => measure(None),
        ["only", reader, text, rounds] => only(reader, text, rounds),
        ["text", name] => write(name),
        [rounds] => rounds
            .parse()
            .map_err(|_| format!("ROUNDS is a number, not '{rounds}'"))
            .and_then(|rounds| measure(Some(rounds))),
        _ => Err("usage: json_speed [ROUNDS] | only READER TEXT ROUNDS | text NAME".into()),
    };
    if let Err(message) = done {
        eprintln!("json_speed: {message}");
        std::process::exit(1);
    }
}
