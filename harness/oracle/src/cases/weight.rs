//! Entries that fit the bytes, at their weight's capacity and one below.

use krabka_metadata::MetadataRecord;
use wire::encoded;

use super::samples::all_kinds;
use super::{Cases, applied};
use crate::facts::build::{
    broker_config, feature_level, partition_record, producer_ids, quota, topic,
};
use crate::layout::Layout;

pub fn add(cases: &mut Cases) {
    small(cases);
    full(cases);
}

/// The weight of each is written out: 144, the records, 8 for each topic.
fn small(cases: &mut Cases) {
    let level = || feature_level("a", 1);
    let producer = || producer_ids(1, 0, 1);
    let lists: [(&str, Vec<MetadataRecord>, usize); 8] = [
        ("a level", vec![level()], 144 + 12),
        ("ProducerIds", vec![producer()], 144),
        (
            "ProducerIds and a level",
            vec![producer(), level()],
            144 + 12,
        ),
        ("a topic", vec![topic("p", 1, 0, 1)], 144 + 38 + 8),
        (
            "a topic with a partition",
            vec![topic("p", 1, 0, 1), partition_record("p", 0, &[])],
            144 + 38 + 8 + 54,
        ),
        (
            "an empty broker group",
            vec![broker_config(1, "a", None)],
            144 + 17,
        ),
        ("an empty quota group", vec![quota(&[], "a", None)], 144 + 6),
        (
            "an empty group and ProducerIds",
            vec![broker_config(1, "a", None), producer()],
            144 + 17,
        ),
    ];
    for (name, records, weight) in lists {
        at_and_below(cases, name, &applied(&records), weight);
    }
    let all = applied(&all_kinds());
    let weight = all.used() + 80 - 36;
    at_and_below(cases, "all kinds", &all, weight);
    let mut fewer = all;
    fewer.entries.remove(fewer.place_of(8));
    at_and_below(cases, "all kinds but ProducerIds", &fewer, weight);
}

fn at_and_below(cases: &mut Cases, name: &str, layout: &Layout, weight: usize) {
    for more in [0, 1, 1_000] {
        let bytes = layout.bytes(weight + more);
        cases.image(format!("{name} at {more} above its weight"), bytes);
    }
    for capacity in [weight - 1, layout.used()] {
        let bytes = layout.bytes(capacity);
        cases.no_image(format!("{name} of weight {weight} at {capacity}"), bytes);
    }
}

/// Levels that weigh 65,536, and one more, each with and without ProducerIds.
fn full(cases: &mut Cases) {
    for (more, is_image) in [(0, true), (1, false)] {
        let levels = levels(65_536 + more);
        let name = format!("weight 65,536 and {more} at 65,536");
        cases.push(&name, levels.bytes(65_536), is_image);
        let entry = encoded(&producer_ids(1, 0, 1));
        let with = levels.insert(0, entry);
        let name = format!("{name}, with ProducerIds");
        cases.push(name, with.bytes(65_536), is_image);
    }
}

/// Feature levels of this weight: entries of 256 bytes, and one of the rest.
fn levels(weight: usize) -> Layout {
    let room = weight - 144;
    let (whole, rest) = (room / 256, room % 256);
    let sizes = std::iter::repeat_n(256, whole).chain([rest]);
    let level = |(number, size): (usize, usize)| {
        let width = size - 11;
        feature_level(&format!("{number:03}{}", "n".repeat(width - 3)), 1)
    };
    let records: Vec<MetadataRecord> = sizes.enumerate().map(level).collect();
    applied(&records)
}
