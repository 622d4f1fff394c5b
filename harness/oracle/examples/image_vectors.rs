//! Writes the input and the expected output of the program `test_image`: operations over images, and what the harness says of them. Open's
//! answers are the harness's own layout of a fresh image, the exact test's the named cases' fixed ones, the lookups' the reference's. From the
//! repository's root:
//!
//!     cargo run --manifest-path harness/Cargo.toml --example image_vectors -- crates/test_image

use krabka_metadata::{MetadataImage, MetadataRecord, NodeId, PartitionRecord};
use oracle::cases::cases;
use oracle::facts::build;
use oracle::image::{FIXED_ROOM, MOST_CAPACITY, layout, weight};
use oracle::layout::{Layout, former};
use oracle::observe::{Witness, observe};
use oracle::stored::Stored;
use uuid::Uuid;
use wire::{NO_RECORD, TOO_SHORT, encoded, hex};

const OPEN: u8 = 0;
const EXACT: u8 = 1;
const TOPIC: u8 = 2;
const TOPIC_BY_ID: u8 = 3;
const PARTITION: u8 = 4;
const BROKER: u8 = 5;
const EPOCH: u8 = 6;
const SHORT: u8 = 7;
const EXACT_PADDED: u8 = 8;
const LOG_OFFSET: u8 = 9;

/// Cases up to this many bytes stand in their lines whole.
const WHOLE: usize = 256;
/// Of cases of many bytes without the zeros at their end one in so many is taken.
const MANY: usize = 512;
const ONE_IN: usize = 9;
const MOST: usize = 2_048;

const HEAD: &str = "\
# Operations over images in hexadecimal, one to a line; made by harness/oracle/examples/image_vectors.rs
# The first byte says which: src/main.rt has the list. A line with a '#' names the next ones.
";

fn main() {
    let mut lines = Stored::new(HEAD);
    open(&mut lines);
    exact(&mut lines);
    lookups(&mut lines);
    lines.write();
}

/// The last bytes of a number.
fn bytes_of(number: usize, width: usize) -> Vec<u8> {
    number.to_be_bytes()[8 - width..].to_vec()
}

/// Open on buffers that hold something.
fn open(lines: &mut Stored) {
    let fills: [&[u8]; 4] = [&[], &[0], &[0xff], b"KRABKA\x00\x02 and more"];
    for capacity in [
        0, 1, 63, 64, 128, 143, 144, 145, 4_096, 65_535, 65_536, 65_537, 70_000,
    ] {
        lines.title(&format!("Open at {capacity}"));
        for fill in fills {
            let with = if fill.is_empty() { &[0xaa] } else { fill };
            let dirty: Vec<u8> = with.iter().copied().cycle().take(capacity).collect();
            lines.push(OPEN, &[&bytes_of(capacity, 3), fill], &opened(dirty));
        }
    }
}

/// The number, the used length, the epoch's bytes as a number, and the digest; or 1 and the digest of what the buffer held.
fn opened(dirty: Vec<u8>) -> String {
    if !(FIXED_ROOM..=MOST_CAPACITY).contains(&dirty.len()) {
        return format!("1 {}", digest(&dirty));
    }
    let fresh = Layout {
        epoch: -1,
        kraft: 0,
        offset: NO_RECORD,
        entries: Vec::new(),
    };
    let image = fresh.bytes(dirty.len());
    let (used, epoch) = (fresh.used(), fresh.epoch.cast_unsigned());
    format!("0 {used} {epoch} {}", digest(&image))
}

fn digest(bytes: &[u8]) -> u64 {
    let next = |n: u64, byte: &u8| (n * 257 + u64::from(*byte)) % 65_521;
    bytes.iter().fold(0, next)
}

/// The named cases with their fixed answers, most of them without the zeros at their end, and one full image.
fn exact(lines: &mut Stored) {
    let mut many = 0;
    for case in cases() {
        let end = case.bytes.iter().rposition(|byte| *byte != 0);
        let front = &case.bytes[..end.map_or(0, |place| place + 1)];
        let full = case.name == "weight 65,536 and 0 at 65,536, with ProducerIds";
        many += usize::from(front.len() > MANY);
        let taken = front.len() <= MANY || front.len() <= MOST && many % ONE_IN == 0;
        if case.bytes.len() > 70_000 || !taken && !full {
            continue;
        }
        let answer = if case.is_image { "image" } else { "no image" };
        lines.title(&case.name);
        if case.bytes.len() <= WHOLE || full {
            lines.push(EXACT, &[&case.bytes], answer);
        }
        if !full {
            let capacity = bytes_of(case.bytes.len(), 3);
            lines.push(EXACT_PADDED, &[&capacity, front], answer);
        }
    }
}

/// The records of the image that is looked into. Topics "q" and "r" share an id, which names "r"; two partitions are short.
fn records() -> Vec<MetadataRecord> {
    let short = |name: &str, number: i32| {
        MetadataRecord::V1Partition(PartitionRecord {
            leader: NodeId(1),
            isr: build::nodes(&[1]),
            ..build::partition(name, number, &[1, 2])
        })
    };
    vec![
        MetadataRecord::V1BrokerRegistration(build::broker(1, 7)),
        build::topic("p", 1, 0, 1),
        build::topic("q", 2, 0, 1),
        build::topic("r", 2, 0, 1),
        short("p", 0),
        short("p", 1),
        build::partition_record("r", -1, &[1]),
        build::feature_level("a", 1),
        build::features_epoch(5),
        build::broker_config(3, "a", None),
    ]
}

fn lookups(lines: &mut Stored) {
    let records = records();
    let image = MetadataImage::from_records(Uuid::nil(), &records);
    let mut witness = Witness::default();
    records.iter().for_each(|record| witness.see(record));
    let observed = observe(&image, &witness).at(records.len() as i64 - 1);
    let bytes = layout(&observed).bytes(weight(&observed));
    let mut damaged = bytes.clone();
    damaged[12] = 1;
    let asked = Asked { image, bytes };
    asked.topics(lines);
    asked.ids(lines);
    asked.partitions(lines);
    asked.brokers(lines);
    lines.title("the features epoch, how many partitions are short, and the log offset");
    let epoch = asked.image.finalized_features_epoch().cast_unsigned();
    lines.push(EPOCH, &[&asked.bytes], &format!("0 {epoch}"));
    lines.push(SHORT, &[&asked.bytes], &format!("0 {}", observed.short));
    lines.push(
        LOG_OFFSET,
        &[&asked.bytes],
        &format!("0 {}", observed.offset),
    );
    log_offsets(lines);
    no_image(lines, &damaged);
    no_image(lines, &former(&asked.bytes));
}

/// The log offset of images that hold nothing else, at both ends of what it may be.
fn log_offsets(lines: &mut Stored) {
    lines.title("the log offset");
    let fresh = observe(&MetadataImage::new(Uuid::nil()), &Witness::default());
    for offset in [NO_RECORD, 0, 1, 1 << 40, i64::MAX] {
        let image = layout(&fresh.clone().at(offset)).bytes(FIXED_ROOM);
        let answer = format!("0 {}", offset.cast_unsigned());
        lines.push(LOG_OFFSET, &[&image], &answer);
    }
    for offset in [-2, i64::MIN] {
        let image = layout(&fresh.clone().at(offset)).bytes(FIXED_ROOM);
        lines.push(LOG_OFFSET, &[&image], "1");
    }
}

struct Asked {
    image: MetadataImage,
    bytes: Vec<u8>,
}

impl Asked {
    /// A stored entry as its record, into an output that just has room and one that has not; no bytes where there is none.
    fn push(
        &self,
        lines: &mut Stored,
        operation: u8,
        query: &[u8],
        record: Option<MetadataRecord>,
    ) {
        let record = record.map_or(Vec::new(), |record| encoded(&record));
        let mut push = |room: usize, answer: &str| {
            lines.push(operation, &[&bytes_of(room, 2), query, &self.bytes], answer);
        };
        push(
            record.len(),
            &format!("0 {} {}", record.len(), hex(&record)),
        );
        if !record.is_empty() {
            push(record.len() - 1, &TOO_SHORT.to_string());
        }
    }

    fn topics(&self, lines: &mut Stored) {
        lines.title("topics by name");
        for name in ["p", "q", "r", "", "o", "pp"] {
            let record = self.image.topic(name).cloned();
            self.push(
                lines,
                TOPIC,
                &named(name.as_bytes()),
                record.map(MetadataRecord::V1Topic),
            );
        }
        for (name, number) in bad_names() {
            lines.push(
                TOPIC,
                &[&bytes_of(600, 2), &named(&name), &self.bytes],
                number,
            );
        }
    }

    fn ids(&self, lines: &mut Stored) {
        lines.title("topics by id");
        for number in [0, 1, 2, 3] {
            let id = build::id(number);
            let record = self.image.topic_by_id(&id).cloned();
            self.push(
                lines,
                TOPIC_BY_ID,
                id.as_bytes(),
                record.map(MetadataRecord::V1Topic),
            );
        }
    }

    fn partitions(&self, lines: &mut Stored) {
        lines.title("partitions");
        for (name, number) in [
            ("p", 0),
            ("p", 1),
            ("p", 2),
            ("p", -1),
            ("q", 0),
            ("r", -1),
            ("r", 0),
        ] {
            let query = [named(name.as_bytes()), i32::to_be_bytes(number).to_vec()].concat();
            let record = self.image.partition(name, number).cloned();
            self.push(
                lines,
                PARTITION,
                &query,
                record.map(MetadataRecord::V1Partition),
            );
        }
        for (name, number) in bad_names() {
            let query = [named(&name), vec![0; 4]].concat();
            lines.push(PARTITION, &[&bytes_of(600, 2), &query, &self.bytes], number);
        }
    }

    fn brokers(&self, lines: &mut Stored) {
        lines.title("brokers");
        for node in [0, 1, 2, u64::MAX] {
            let record = self.image.broker(NodeId(node)).cloned();
            let record = record.map(MetadataRecord::V1BrokerRegistration);
            self.push(lines, BROKER, &node.to_be_bytes(), record);
        }
    }
}

/// A name behind its length.
fn named(name: &[u8]) -> Vec<u8> {
    [&bytes_of(name.len(), 2), name].concat()
}

/// A name that is no UTF-8, 4, and one that is too long, 5.
fn bad_names() -> [(Vec<u8>, &'static str); 2] {
    [(vec![0xff], "4"), (vec![b'n'; 256], "5")]
}

/// Each lookup of a buffer that is no image says 1.
fn no_image(lines: &mut Stored, buffer: &[u8]) {
    lines.title("lookups in a buffer that is no image");
    let room = bytes_of(600, 2);
    lines.push(TOPIC, &[&room, &named(b"p"), buffer], "1");
    lines.push(TOPIC, &[&room, &named(&[0xff]), buffer], "1");
    lines.push(TOPIC_BY_ID, &[&room, &[0; 16], buffer], "1");
    lines.push(PARTITION, &[&room, &named(b"p"), &[0; 4], buffer], "1");
    lines.push(BROKER, &[&room, &[0; 8], buffer], "1");
    lines.push(EPOCH, &[buffer], "1");
    lines.push(SHORT, &[buffer], "1");
    lines.push(LOG_OFFSET, &[buffer], "1");
}
