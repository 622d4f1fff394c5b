//! What was found to take longest at the largest capacity, beside the same
//! operation on the plain full image.

use krabka_metadata::{ClientQuotaRecord, MetadataRecord, PartitionRecord, QuotaEntity};
use oracle::facts::build::{nodes, partition, topic};
use oracle::image::image;
use oracle::snapshot::starting;
use wire::{NO_RECORD, encoded_all};

use super::restarts::{decoded, restored, snapshot};
use super::rows::Timed;
use super::times::Times;
use super::{SIZES, changes, lookups};
use crate::images::{Full, Subject};

const CAPACITY: usize = SIZES[SIZES.len() - 1];
/// As many topics of two-byte names as the capacity takes.
const TOPICS: u64 = 1_391;
/// As many empty quota groups of one entity with a two-byte type.
const GROUPS: u64 = 4_670;
/// As many partitions of four replicas, one of them being added, and as many of
/// 64 replicas and 64 other nodes being added.
const MOVING: i32 = 695;
const WIDE: i32 = 60;
/// As many partitions of 64 replicas.
const REPLICATED: i32 = 110;
/// As many quotas of one user, and of eight.
const OF_ONE: u64 = 1_816;
const OF_EIGHT: u64 = 463;
/// The printable ASCII characters that are no space, and the first of them.
const CHARACTERS: u64 = 94;
const FIRST: u64 = 33;

pub struct Worst {
    pub name: &'static str,
    /// The row of the same operation on the plain image.
    pub plain: &'static str,
    pub times: Times,
}

impl Worst {
    fn of(plain: &'static str, timed: Timed) -> Self {
        let Timed { name, times, .. } = timed;
        Self { name, plain, times }
    }

    /// The better times of both.
    pub fn best(self, other: &Self) -> Self {
        Self {
            times: self.times.best(other.times),
            ..self
        }
    }
}

pub fn measure(full: &Full) -> Vec<Worst> {
    let moved = last_first(&snapshot(full));
    let groups = starting(NO_RECORD, &encoded_all(&empty_groups()));
    vec![
        Worst::of(
            "exact test",
            changes::exact(
                "exact test, 1,391 topics whose ids differ in bytes 12 and 13 alone",
                &alike_ids(),
            ),
        ),
        Worst::of(
            "exact test",
            changes::exact(
                "exact test, 110 partitions of 64 replicas",
                &partitions(REPLICATED, &all(1, 64), &[]).1,
            ),
        ),
        Worst::of(
            "exact test",
            changes::exact("exact test, 1,816 quotas of one user", &quotas(OF_ONE, 1)),
        ),
        Worst::of(
            "exact test",
            changes::exact(
                "exact test, 463 quotas of eight users",
                &quotas(OF_EIGHT, 8),
            ),
        ),
        Worst::of(
            "Restore",
            restored(
                CAPACITY,
                "Restore, the last record moved to the front",
                &moved,
            ),
        ),
        Worst::of(
            "Restore",
            restored(CAPACITY, "Restore, 4,670 empty quota groups", &groups),
        ),
        Worst::of(
            "short count",
            moving(
                "short count, 695 partitions, one of four replicas being added",
                MOVING,
                &[1, 2, 3, 4],
                &[4],
            ),
        ),
        Worst::of(
            "short count",
            moving(
                "short count, 60 partitions of 64 replicas, 64 other nodes being added",
                WIDE,
                &all(1, 64),
                &all(65, 128),
            ),
        ),
    ]
}

/// The short count of partitions that are on the move.
fn moving(name: &'static str, count: i32, replicas: &[u64], adding: &[u64]) -> Timed {
    let (subject, bytes) = partitions(count, replicas, adding);
    lookups::shorts(name, &bytes, &subject.image)
}

/// An image of partitions alone, and its bytes.
fn partitions(count: i32, replicas: &[u64], adding: &[u64]) -> (Subject, Vec<u8>) {
    let record = |number| {
        MetadataRecord::V1Partition(PartitionRecord {
            adding_replicas: nodes(adding),
            isr: Vec::new(),
            ..partition("p", number, replicas)
        })
    };
    let records: Vec<_> = (0..count).map(record).collect();
    let subject = Subject::of(&records);
    let bytes = image(&subject.observed, CAPACITY).expect("partitions that fit");
    (subject, bytes)
}

fn all(first: u64, last: u64) -> Vec<u64> {
    (first..=last).collect()
}

/// All ids end in the same two bytes, so that each is sought among those
/// before it; and each differs from them late.
fn alike_ids() -> Vec<u8> {
    let records: Vec<_> = (0..TOPICS)
        .map(|number| topic(&two(number), number << 16, 0, 3))
        .collect();
    image(&Subject::of(&records).observed, CAPACITY).expect("topics that fit")
}

/// Quotas of as many users each, all of one type, so that names decide.
fn quotas(count: u64, users: u64) -> Vec<u8> {
    let user = |number| QuotaEntity {
        entity_type: "user".to_owned(),
        entity_name: Some(two(number)),
    };
    let quota = |number| {
        MetadataRecord::V1ClientQuota(ClientQuotaRecord {
            entity: (number * users..(number + 1) * users).map(user).collect(),
            config_key: "rate".to_owned(),
            config_value: Some(1.0),
        })
    };
    let records: Vec<_> = (0..count).map(quota).collect();
    image(&Subject::of(&records).observed, CAPACITY).expect("quotas that fit")
}

/// No snapshot has empty groups, so that they are restored one by one; they
/// are short, and each is sought behind all before it.
fn empty_groups() -> Vec<MetadataRecord> {
    let group = |number| {
        let entity = QuotaEntity {
            entity_type: two(number),
            entity_name: None,
        };
        MetadataRecord::V1ClientQuota(ClientQuotaRecord {
            entity: vec![entity],
            config_key: String::new(),
            config_value: None,
        })
    };
    (0..GROUPS).map(group).collect()
}

fn last_first(snapshot: &[u8]) -> Vec<u8> {
    let (offset, mut records) = decoded(snapshot);
    records.rotate_right(1);
    starting(offset, &encoded_all(&records))
}

/// Two characters; those of a greater number come later.
fn two(number: u64) -> String {
    let places = [number / CHARACTERS, number % CHARACTERS];
    let byte = |place| u8::try_from(FIRST + place).expect("a number below 94 times 94");
    places.map(byte).map(char::from).iter().collect()
}
