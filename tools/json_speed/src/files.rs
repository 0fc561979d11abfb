//! Metadata files: read by ours and by serde_json, and written by ours.
use crate::texts::{self, Ids};
use serde_json::Value;
use std::hint::black_box;
use std::time::Instant;

/// What a file comes to: the number of the answer, how many snapshots its metadata has, and the place of a refusal, or else how many members were skipped.
#[repr(C)]
#[derive(Clone, Copy)]
struct FileRead {
    number: u8,
    snapshots: u8,
    place: usize,
}

extern "C" {
    fn json_file(text: *const u8, length: usize) -> FileRead;
    fn json_copy(text: *const u8, length: usize, buffer: *mut u8, room: usize) -> FileRead;
}

const SNAPSHOTS: usize = 64;
/// No file that is written is longer: `export-length`.
const LONGEST: usize = 339_202;

fn ours(text: &[u8]) -> FileRead {
    // SAFETY: a slice's pointer and length stand for readable bytes. The function keeps no pointer.
    unsafe { json_file(text.as_ptr(), text.len()) }
}

/// Reads a file and writes it into the buffer; the place is then how many bytes were written.
fn copied(text: &[u8], buffer: &mut [u8]) -> FileRead {
    // SAFETY: as above, and the buffer is lent to this call alone.
    unsafe { json_copy(text.as_ptr(), text.len(), buffer.as_mut_ptr(), buffer.len()) }
}

/// Version 2, with 64 snapshots that have summaries and with both logs, on one line.
fn file() -> Vec<u8> {
    let mut ids = Ids::new();
    let held: Vec<u64> = (0..SNAPSHOTS).map(|_| ids.id()).collect();
    let time = |i: usize| 1_700_000_000_000 + 3_600_000 * i;
    let snapshots: Vec<String> = (0..SNAPSHOTS)
        .map(|i| {
            let parent = if i > 0 { format!("\"parent-snapshot-id\":{},", held[i - 1]) } else { String::new() };
            format!(
                "{{\"sequence-number\":{},\"snapshot-id\":{},{parent}\"timestamp-ms\":{},\"summary\":{},\"manifest-list\":\"s3://archive/register/metadata/snap-{}-1-{}.avro\",\"schema-id\":0}}",
                i + 1, held[i], time(i), texts::summary(&mut ids), held[i], ids.uuid()
            )
        })
        .collect();
    let log: Vec<String> = (0..SNAPSHOTS).map(|i| format!("{{\"snapshot-id\":{},\"timestamp-ms\":{}}}", held[i], time(i))).collect();
    let files: Vec<String> = (0..SNAPSHOTS)
        .map(|i| format!("{{\"timestamp-ms\":{},\"metadata-file\":\"s3://archive/register/metadata/{:05}-{}.metadata.json\"}}", time(i), i, ids.uuid()))
        .collect();
    format!(
        "{{\"format-version\":2,\"table-uuid\":\"{}\",\"location\":\"s3://archive/register\",\"last-sequence-number\":{SNAPSHOTS},\"last-updated-ms\":{},\"last-column-id\":3,\
         \"current-schema-id\":0,\"schemas\":[{{\"type\":\"struct\",\"schema-id\":0,\"fields\":[{{\"id\":1,\"name\":\"file_no\",\"required\":false,\"type\":\"long\"}},\
         {{\"id\":2,\"name\":\"session\",\"required\":false,\"type\":\"timestamp\"}},{{\"id\":3,\"name\":\"shelf\",\"required\":false,\"type\":\"long\"}}]}}],\
         \"default-spec-id\":0,\"partition-specs\":[{{\"spec-id\":0,\"fields\":[{{\"name\":\"session_year\",\"transform\":\"year\",\"source-id\":2,\"field-id\":1000}}]}}],\
         \"last-partition-id\":1000,\"default-sort-order-id\":0,\"sort-orders\":[{{\"order-id\":0,\"fields\":[]}}],\"properties\":{{\"owner\":\"archive\"}},\
         \"current-snapshot-id\":{},\"refs\":{{\"main\":{{\"snapshot-id\":{},\"type\":\"branch\"}}}},\"snapshots\":[{}],\"snapshot-log\":[{}],\"metadata-log\":[{}]}}",
        ids.uuid(), time(SNAPSHOTS - 1), held[SNAPSHOTS - 1], held[SNAPSHOTS - 1], snapshots.join(","), log.join(","), files.join(",")
    )
    .into_bytes()
}

/// The least of the rounds, in nanoseconds.
fn least(rounds: usize, mut call: impl FnMut()) -> f64 {
    (0..rounds).fold(f64::INFINITY, |least, _| {
        let start = Instant::now();
        call();
        least.min(start.elapsed().as_nanos() as f64)
    })
}

pub fn measure(asked: Option<usize>) -> Result<(), String> {
    let rounds = asked.unwrap_or(400);
    let file = file();
    let value: Value = serde_json::from_slice(&file).map_err(|error| error.to_string())?;
    let spaced = serde_json::to_vec_pretty(&value).map_err(|error| error.to_string())?;
    let mut buffer = vec![0; LONGEST];
    let written = copied(&file, &mut buffer);
    let export = buffer[..written.place].to_vec();
    println!("\nMetadata files of {SNAPSHOTS} snapshots. Nanoseconds a byte, the least of {rounds} rounds in turn; ratio: ours to serde_json's tree.\n");
    println!("| file | bytes | ours | serde_json, tree | ratio | ours, read and written |\n|---|---|---|---|---|---|");
    for (name, text) in [("file", &file), ("spaced", &spaced), ("export", &export)] {
        let read = ours(text);
        if (read.number, read.snapshots as usize) != (0, SNAPSHOTS) {
            return Err(format!("{name}: our number is {} at {}", read.number, read.place));
        }
        serde_json::from_slice::<Value>(text).map_err(|error| format!("{name}: serde_json says {error}"))?;
        let a_byte = |nanoseconds: f64| nanoseconds / text.len() as f64;
        let (mut own, mut tree, mut both) = (f64::INFINITY, f64::INFINITY, f64::INFINITY);
        for _ in 0..rounds {
            own = own.min(least(1, || { black_box(ours(black_box(text))); }));
            let mut left = None;
            tree = tree.min(least(1, || left = serde_json::from_slice::<Value>(black_box(text)).ok()));
            drop(black_box(left));
            both = both.min(least(1, || { black_box(copied(black_box(text), &mut buffer)); }));
        }
        println!("| {name} | {} | {:.2} | {:.2} | **{:.2}** | {:.2} |", text.len(), a_byte(own), a_byte(tree), own / tree, a_byte(both));
    }
    Ok(())
}
