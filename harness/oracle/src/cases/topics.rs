//! A topic's count, its fifth field, and the ids that name topics.

use krabka_metadata::{MetadataRecord, TopicRecord};
use uuid::Uuid;
use wire::encoded;

use super::{Cases, applied};
use crate::facts::build::{feature_level, partition_record, topic};
use crate::image::topic_entry;
use crate::layout::Layout;

pub fn add(cases: &mut Cases) {
    counts(cases);
    other_partitions(cases);
    fifth_field(cases);
    ids(cases);
    crowds(cases);
}

/// Two partitions are stored, also behind other topics.
fn counts(cases: &mut Cases) {
    let base = applied(&[
        topic("p", 1, 0, 1),
        topic("q", 2, 0, 1),
        partition_record("p", -1, &[1]),
        partition_record("p", 7, &[1]),
        partition_record("q", 0, &[1]),
    ]);
    for count in [0, 1, 2] {
        let layout = base
            .clone()
            .with(topic_entry(&topic("p", 1, count, 1), true));
        cases.image(format!("count {count} of 2 partitions"), layout.roomy());
    }
    for count in [3, 4, 255, 256, i32::MAX, -1, -2, i32::MIN, i32::MIN + 2] {
        let layout = base
            .clone()
            .with(topic_entry(&topic("p", 1, count, 1), true));
        cases.no_image(format!("count {count} of 2 partitions"), layout.roomy());
    }
}

/// Partitions of other names do not count, whether or not they have a topic.
fn other_partitions(cases: &mut Cases) {
    for (name, is_image) in [
        ("p", true),
        ("", false),
        ("o", false),
        ("pa", false),
        ("q", false),
    ] {
        let mut layout = applied(&[topic("p", 1, 0, 1), partition_record(name, 0, &[])]);
        layout = layout.with(topic_entry(&topic("p", 1, 1, 0), true));
        cases.push(
            format!("count 1 with a partition of {name:?}"),
            layout.roomy(),
            is_image,
        );
    }
    let none = applied(&[]).append(topic_entry(&topic("p", 1, 1, 0), true));
    cases.no_image("count 1 without partitions", none.roomy());
}

/// An entry of these fields behind a topic's record.
fn behind(record: &MetadataRecord, field: &[u8]) -> Vec<u8> {
    let mut entry = [&encoded(record), field].concat();
    let body = u16::try_from(entry.len() - 3).expect("a short entry");
    entry[1..3].copy_from_slice(&body.to_be_bytes());
    entry
}

fn fifth_field(cases: &mut Cases) {
    let fields: [(&str, &[u8]); 14] = [
        ("missing", &[]),
        ("flag 2", &[5, 0, 5, 0, 0, 0, 0, 2]),
        ("flag 255", &[5, 0, 5, 0, 0, 0, 0, 255]),
        ("first zero 1", &[5, 0, 5, 1, 0, 0, 0, 1]),
        ("second zero 1", &[5, 0, 5, 0, 1, 0, 0, 1]),
        ("third zero 1", &[5, 0, 5, 0, 0, 1, 0, 1]),
        ("fourth zero 1", &[5, 0, 5, 0, 0, 0, 1, 1]),
        ("four bytes", &[5, 0, 4, 0, 0, 0, 1]),
        ("six bytes", &[5, 0, 6, 0, 0, 0, 0, 0, 1]),
        ("empty", &[5, 0, 0]),
        ("tag 6", &[6, 0, 5, 0, 0, 0, 0, 1]),
        ("tag 4", &[4, 0, 5, 0, 0, 0, 0, 1]),
        ("torn", &[5, 0, 5, 0, 0, 0, 0]),
        ("twice", &[5, 0, 5, 0, 0, 0, 0, 1, 5, 0, 5, 0, 0, 0, 0, 1]),
    ];
    let record = topic("p", 1, 0, 1);
    for (name, field) in fields {
        let layout = applied(&[]).append(behind(&record, field));
        cases.no_image(format!("tag 5 {name}"), layout.roomy());
    }
    for flag in [0, 1] {
        let layout = applied(&[]).append(behind(&record, &[5, 0, 5, 0, 0, 0, 0, flag]));
        cases.image(format!("tag 5 of flag {flag}"), layout.roomy());
    }
    let other = behind(&feature_level("a", 1), &[5, 0, 5, 0, 0, 0, 0, 1]);
    cases.no_image("tag 5 of another kind", applied(&[]).append(other).roomy());
}

/// Three topics, of which the first and the last share an id.
fn ids(cases: &mut Cases) {
    for flags in 0..8u8 {
        let named = |bit: u8| flags >> bit & 1 == 1;
        let layout = applied(&[])
            .append(topic_entry(&topic("a", 1, 0, 1), named(0)))
            .append(topic_entry(&topic("b", 2, 0, 1), named(1)))
            .append(topic_entry(&topic("c", 1, 0, 1), named(2)));
        let is_image = !(named(0) && named(2));
        cases.push(
            format!("named topics by bits: {flags:03b}"),
            layout.roomy(),
            is_image,
        );
    }
}

/// How many topics of a four-byte name an image can hold.
const CROWD: u32 = (65_536 - 144) / 49;

/// The id of a number.
type IdOf = fn(u64) -> Uuid;

/// As many topics as there is room for, all of them named.
fn crowds(cases: &mut Cases) {
    let families: [(&str, IdOf); 4] = [
        ("counting up", |n| Uuid::from_u64_pair(0, n)),
        ("first bytes", |n| Uuid::from_u64_pair(n << 48, 0)),
        ("middle bytes", |n| Uuid::from_u64_pair(n, n << 40)),
        ("scattered", |n| {
            Uuid::from_u64_pair(scattered(n), scattered(!n))
        }),
    ];
    for (name, id) in families {
        let crowd = Layout {
            entries: (0..CROWD).map(|n| member(n, id(n.into()))).collect(),
            ..applied(&[])
        };
        for (first, second) in [(0, CROWD - 1), (0, 1), (CROWD / 2, CROWD - 2)] {
            let mut shared = crowd.clone();
            shared.entries[second as usize] = member(second, id(first.into()));
            let name = format!("{name}: topics {first} and {second} of {CROWD} share an id");
            cases.no_image(name, shared.bytes(65_536));
        }
        let name = format!("{name}: {CROWD} ids");
        cases.image(name, crowd.bytes(65_536));
    }
}

fn member(number: u32, topic_id: Uuid) -> Vec<u8> {
    let record = MetadataRecord::V1Topic(TopicRecord {
        name: format!("{number:04}"),
        topic_id,
        partitions: 0,
        replication_factor: 1,
    });
    topic_entry(&record, true)
}

/// Each step can be undone, so that different numbers stay different.
fn scattered(number: u64) -> u64 {
    let mixed = number.wrapping_mul(0x9E37_79B9_7F4A_7C15);
    (mixed ^ (mixed >> 29)).wrapping_mul(0xBF58_476D_1CE4_E5B9)
}
