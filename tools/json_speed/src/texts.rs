//! The texts that are read: lists of updates as published JSON, on one line, without spaces.
use std::fmt::Write;

pub struct Text {
    pub name: String,
    pub bytes: Vec<u8>,
    /// How many updates the list has.
    pub updates: usize,
    /// The kind of the last, as our records number them.
    pub last: u8,
}

const ADD_SNAPSHOT: u8 = 4;
const SET_REF: u8 = 7;
const REMOVE_PARTITION_SPECS: u8 = 20;

/// Numbers that look like a catalogue's ids: the same in every process.
pub struct Ids(u64);

impl Ids {
    pub fn new() -> Self {
        Ids(0x9e3779b97f4a7c15)
    }
    pub fn next(&mut self, below: u64) -> u64 {
        self.0 ^= self.0 << 13;
        self.0 ^= self.0 >> 7;
        self.0 ^= self.0 << 17;
        self.0 % below
    }
    pub fn id(&mut self) -> u64 {
        1_000_000_000_000_000_000 + self.next(8_000_000_000_000_000_000)
    }
    pub fn uuid(&mut self) -> String {
        let (a, b) = (self.next(u64::MAX), self.next(u64::MAX));
        format!(
            "{:08x}-{:04x}-{:04x}-{:04x}-{:012x}",
            a >> 32,
            a >> 16 & 0xffff,
            a & 0xffff,
            b >> 48,
            b & 0xffff_ffff_ffff
        )
    }
}

fn listed(name: &str, updates: &[String], last: u8) -> Text {
    let mut text = String::from("[");
    for (i, update) in updates.iter().enumerate() {
        if i > 0 {
            text.push(',');
        }
        text.push_str(update);
    }
    text.push(']');
    Text {
        name: name.into(),
        bytes: text.into_bytes(),
        updates: updates.len(),
        last,
    }
}

/// What an append says of itself: texts all, as published.
pub fn summary(ids: &mut Ids) -> String {
    let (records, files) = (ids.next(90_000) + 10_000, ids.next(90) + 10);
    let (bytes, total) = (
        ids.next(900_000_000) + 100_000_000,
        ids.next(900_000_000) + 100_000_000,
    );
    format!(
        "{{\"operation\":\"append\",\"spark.app.id\":\"local-{}\",\"engine-name\":\"spark\",\"iceberg-version\":\"1.4\",\"added-data-files\":\"{files}\",\"added-records\":\"{records}\",\"added-files-size\":\"{bytes}\",\
         \"changed-partition-count\":\"{}\",\"total-records\":\"{total}\",\"total-data-files\":\"{}\",\"total-delete-files\":\"0\",\
         \"total-position-deletes\":\"0\",\"total-equality-deletes\":\"0\"}}",
        1_700_000_000_000 + ids.next(1_000_000_000),
        ids.next(20) + 1,
        ids.next(9000) + 1000,
    )
}

/// A snapshot that is added; with a summary and the name of its manifest list, or without.
fn add_snapshot(ids: &mut Ids, i: usize, summary: Option<&str>) -> String {
    let id = ids.id();
    let mut text = format!("{{\"action\":\"add-snapshot\",\"snapshot\":{{\"snapshot-id\":{id},\"sequence-number\":{},\"timestamp-ms\":{}", i + 1, 1_700_000_000_000 + i as u64 * 61_003);
    if let Some(summary) = summary {
        write!(
            text,
            ",\"parent-snapshot-id\":{},\"manifest-list\":\"s3://bucket/warehouse/db/table/metadata/snap-{id}-1-{}.avro\",\"summary\":{summary},\"schema-id\":0",
            ids.id(),
            ids.uuid()
        )
        .unwrap();
    }
    if summary.is_none() {
        write!(
            text,
            ",\"parent-snapshot-id\":{},\"first-row-id\":{},\"added-rows\":{}",
            ids.id(),
            ids.next(1_000_000),
            ids.next(10_000)
        )
        .unwrap();
    }
    text.push_str("}}");
    text
}

fn set_ref(ids: &mut Ids, i: usize) -> String {
    if i % 4 == 0 {
        return format!("{{\"action\":\"set-snapshot-ref\",\"ref-name\":\"release-{i}\",\"type\":\"tag\",\"snapshot-id\":{},\"max-ref-age-ms\":864000000}}", ids.id());
    }
    format!("{{\"action\":\"set-snapshot-ref\",\"ref-name\":\"main\",\"type\":\"branch\",\"snapshot-id\":{}}}", ids.id())
}

/// A field of a schema.
fn field(id: usize, name: &str, kind: &str) -> String {
    format!("{{\"id\":{id},\"name\":\"{name}\",\"required\":false,\"type\":\"{kind}\"}}")
}

fn add_schema(i: usize) -> String {
    let fields = [
        field(1, "file_no", "long"),
        field(2, "filed_at", "timestamp"),
        field(3, "amount", "long"),
        field(4, "closed_at", "timestamp"),
        field(5, &format!("extra_{i}"), "long"),
    ];
    format!("{{\"action\":\"add-schema\",\"schema\":{{\"type\":\"struct\",\"schema-id\":{i},\"fields\":[{}]}},\"last-column-id\":5}}", fields.join(","))
}

fn add_order(i: usize) -> String {
    let field = |source: usize, direction: &str, nulls: &str| {
        format!("{{\"transform\":\"identity\",\"source-id\":{source},\"direction\":\"{direction}\",\"null-order\":\"{nulls}\"}}")
    };
    format!(
        "{{\"action\":\"add-sort-order\",\"sort-order\":{{\"order-id\":{},\"fields\":[{},{}]}}}}",
        i + 1,
        field(2, "desc", "nulls-last"),
        field(1, "asc", "nulls-first")
    )
}

fn add_spec(i: usize) -> String {
    let field = |source: usize, id: usize, name: &str, transform: &str| {
        format!("{{\"source-id\":{source},\"field-id\":{id},\"name\":\"{name}\",\"transform\":\"{transform}\"}}")
    };
    let fields = [
        field(2, 1000, "filed_day", "day"),
        field(1, 1001, "no_bucket", "bucket[16]"),
    ];
    format!(
        "{{\"action\":\"add-spec\",\"spec\":{{\"spec-id\":{i},\"fields\":[{}]}}}}",
        fields.join(",")
    )
}

/// 64 updates: 29 commits, each a snapshot with its summary and a ref, and six more of other kinds.
pub fn updates() -> Text {
    let mut ids = Ids(0x9e3779b97f4a7c15);
    let mut list = lean_kinds(&mut ids, 0)[..6].to_vec();
    for i in 0..29 {
        let summary = summary(&mut ids);
        list.push(add_snapshot(&mut ids, i, Some(&summary)));
        list.push(set_ref(&mut ids, i));
    }
    listed("updates", &list, SET_REF)
}

/// One update of each of the fifteen kinds.
fn lean_kinds(ids: &mut Ids, i: usize) -> Vec<String> {
    vec![
        format!("{{\"action\":\"assign-uuid\",\"uuid\":\"{}\"}}", ids.uuid()),
        "{\"action\":\"upgrade-format-version\",\"format-version\":2}".into(),
        add_schema(i),
        "{\"action\":\"set-current-schema\",\"schema-id\":-1}".into(),
        add_spec(i),
        add_order(i),
        "{\"action\":\"set-default-spec\",\"spec-id\":-1}".into(),
        "{\"action\":\"set-default-sort-order\",\"sort-order-id\":-1}".into(),
        format!("{{\"action\":\"set-location\",\"location\":\"s3://bucket/warehouse/files.db/register_{i}\"}}"),
        add_snapshot(ids, i, None),
        format!("{{\"action\":\"set-snapshot-ref\",\"ref-name\":\"main\",\"type\":\"branch\",\"snapshot-id\":{},\"min-snapshots-to-keep\":10,\"max-snapshot-age-ms\":432000000,\"max-ref-age-ms\":864000000}}", ids.id()),
        format!("{{\"action\":\"remove-snapshots\",\"snapshot-ids\":[{},{},{},{},{},{},{}]}}", ids.id(), ids.id(), ids.id(), ids.id(), ids.id(), ids.id(), ids.id()),
        format!("{{\"action\":\"remove-snapshot-ref\",\"ref-name\":\"release-{i}\"}}"),
        format!("{{\"action\":\"remove-schemas\",\"schema-ids\":[{i},{}]}}", i + 1),
        format!("{{\"action\":\"remove-partition-specs\",\"spec-ids\":[{i}]}}"),
    ]
}

/// 60 updates without summaries: four of each kind.
pub fn lean() -> Text {
    let mut ids = Ids(0xd1b54a32d192ed03);
    let list: Vec<String> = (0..4).flat_map(|i| lean_kinds(&mut ids, i)).collect();
    listed("lean", &list, REMOVE_PARTITION_SPECS)
}

/// A list of about so many bytes: of more snapshots, up to 64, and from there on of longer summaries.
pub fn of_length(name: &str, length: usize) -> Text {
    let mut ids = Ids(0x2545f4914f6cdd1d);
    let count = (length / 500).clamp(1, 64);
    let mut list = Vec::new();
    for i in 0..count {
        let mut said = String::from("{\"operation\":\"append\"");
        let mut k = 0;
        while said.len() + 310 < length / count {
            write!(
                said,
                ",\"added-records-{k}\":\"{}\"",
                ids.next(1_000_000_000)
            )
            .unwrap();
            k += 1;
        }
        said.push('}');
        list.push(add_snapshot(&mut ids, i, Some(&said)));
    }
    listed(name, &list, ADD_SNAPSHOT)
}

pub fn all() -> Vec<Text> {
    let mut texts = vec![updates(), lean()];
    for (name, length) in [
        ("1 KB", 1_000),
        ("10 KB", 10_000),
        ("100 KB", 100_000),
        ("1 MB", 1_000_000),
        ("10 MB", 10_000_000),
    ] {
        texts.push(of_length(name, length));
    }
    texts
}
