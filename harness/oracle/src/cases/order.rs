//! Entries in order, out of it, and repeated.

use krabka_metadata::{MetadataRecord, PatternType};
use wire::encoded;

use super::samples::all_kinds;
use super::{Cases, applied};
use crate::facts::build::{
    broker, broker_config, controller, feature_level, freeze, partition_record, quota, recovering,
    topic,
};
use crate::image::topic_entry;

pub fn add(cases: &mut Cases) {
    all(cases);
    for (name, pair) in pairs() {
        let entries = pair.map(|record| match record {
            MetadataRecord::V1Topic(_) => topic_entry(&record, true),
            _ => encoded(&record),
        });
        let [first, second] = entries;
        let layout = |list: [&Vec<u8>; 2]| {
            let [one, next] = list.map(Clone::clone);
            applied(&[]).append(one).append(next).roomy()
        };
        cases.image(format!("in order: {name}"), layout([&first, &second]));
        cases.no_image(format!("out of order: {name}"), layout([&second, &first]));
        cases.no_image(format!("repeated: {name}"), layout([&first, &first]));
    }
}

/// Each entry repeated, swapped with its next, and moved to the other end.
fn all(cases: &mut Cases) {
    let base = applied(&all_kinds());
    cases.image("all kinds", base.roomy());
    for (place, entry) in base.entries.iter().enumerate() {
        let kind = entry[0];
        let repeated = base.clone().insert(place, entry.clone());
        cases.no_image(
            format!("entry {place} of kind {kind} repeated"),
            repeated.roomy(),
        );
        let mut moved = base.clone();
        match place + 1 == base.entries.len() {
            true => moved.entries.rotate_right(1),
            false => moved.entries.swap(place, place + 1),
        }
        cases.no_image(format!("entry {place} of kind {kind} moved"), moved.roomy());
    }
}

/// Two records in 01's order, where another order would turn them round.
fn pairs() -> Vec<(&'static str, [MetadataRecord; 2])> {
    let node = |node| MetadataRecord::V1BrokerRegistration(broker(node, 0));
    let one = |name| quota(&[("ip", name)], "b", Some(0.0));
    let level = |name| feature_level(name, 1);
    vec![
        ("nodes are unsigned", [node(1), node(1 << 63)]),
        ("nodes by value", [node(2), node(10)]),
        (
            "kind 17 after 3",
            [
                node(9),
                MetadataRecord::V1ControllerRegistration(controller(1, 1)),
            ],
        ),
        (
            "node, then name",
            [
                broker_config(1, "z", Some("")),
                broker_config(2, "a", Some("")),
            ],
        ),
        (
            "topics by bytes",
            [topic("a-1", 1, 0, 1), topic("a1", 2, 0, 1)],
        ),
        (
            "a name before its continuation",
            [level("a"), level("a\u{0}")],
        ),
        ("the empty name first", [level(""), level("\u{0}")]),
        (
            "partitions are signed",
            [
                partition_record("p", -1, &[]),
                partition_record("p", 0, &[]),
            ],
        ),
        (
            "partitions by value",
            [
                partition_record("p", 255, &[]),
                partition_record("p", 256, &[]),
            ],
        ),
        (
            "topic, then partition",
            [recovering("p", 5), recovering("p-1", -5)],
        ),
        (
            "an absent name first",
            [one(None), quota(&[("ip", Some(""))], "a", Some(0.0))],
        ),
        (
            "a list before its continuation",
            [
                one(None),
                quota(&[("ip", None), ("ip", None)], "a", Some(0.0)),
            ],
        ),
        (
            "type before name",
            [
                quota(&[("ip", Some("b"))], "a", Some(0.0)),
                quota(&[("user", Some("a"))], "a", Some(0.0)),
            ],
        ),
        (
            "entities before the key",
            [
                quota(&[], "b", Some(0.0)),
                quota(&[("ip", None)], "a", Some(0.0)),
            ],
        ),
        (
            "literal before prefixed",
            [
                freeze("z", PatternType::Literal),
                freeze("a", PatternType::Prefixed),
            ],
        ),
    ]
}
