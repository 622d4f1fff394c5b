//! The lookups, each of something that is stored.

use std::hint::black_box;

use krabka_metadata::{MetadataImage, NodeId, ThrottleKind};
use oracle::observe::short;

use super::rows::Timed;
use crate::images::Full;
use crate::{broker, features_epoch, freeze, partition, short_count, throttle, topic, topic_by_id};

pub fn measure(full: &Full) -> Vec<Timed> {
    let [topics, brokers, counts] = [topics(full), brokers(full), counts(full)];
    topics.into_iter().chain(brokers).chain(counts).collect()
}

fn topics(full: &Full) -> Vec<Timed> {
    let (bytes, image) = (&full.bytes[..], &full.image);
    let (name, id) = (full.name.as_str(), full.id);
    let mut out = [0; 1_024];
    vec![
        Timed::of(
            "topic by name",
            "`topic`",
            || found(topic(black_box(bytes), name.as_bytes(), &mut out)),
            || image.topic(black_box(name)).is_some(),
        ),
        Timed::of(
            "topic by id",
            "`topic_by_id`",
            || found(topic_by_id(black_box(bytes), id.as_bytes(), &mut out)),
            || image.topic_by_id(black_box(&id)).is_some(),
        ),
        Timed::of(
            "partition",
            "`partition`",
            || found(partition(black_box(bytes), name.as_bytes(), 1, &mut out)),
            || image.partition(black_box(name), 1).is_some(),
        ),
        Timed::of(
            "freeze",
            "`topic_freeze`",
            || found(freeze(black_box(bytes), name.as_bytes(), &mut out)),
            || image.topic_freeze(black_box(name)).is_some(),
        ),
    ]
}

fn brokers(full: &Full) -> Vec<Timed> {
    let (bytes, image) = (&full.bytes[..], &full.image);
    let mut out = [0; 1_024];
    let mut value = [0];
    vec![
        Timed::of(
            "broker",
            "`broker`",
            || found(broker(black_box(bytes), 2, &mut out)),
            || image.broker(black_box(NodeId(2))).is_some(),
        ),
        Timed::of(
            "throttle",
            "`broker_throttle_rate`",
            || found(throttle(black_box(bytes), 2, 0, &mut value)),
            || image.broker_throttle_rate(black_box(NodeId(2)), ThrottleKind::Leader),
        ),
    ]
}

fn counts(full: &Full) -> Vec<Timed> {
    let (bytes, image) = (&full.bytes[..], &full.image);
    let mut value = [0];
    vec![
        Timed::of(
            "features epoch",
            "`finalized_features_epoch`",
            || features_epoch(black_box(bytes), &mut value).expect("an image"),
            || black_box(image).finalized_features_epoch(),
        ),
        shorts("short count", bytes, image),
    ]
}

/// How many partitions are short.
pub fn shorts(name: &'static str, bytes: &[u8], image: &MetadataImage) -> Timed {
    Timed::of(
        name,
        "`all_partitions`, counted",
        || short_count(black_box(bytes)).expect("an image"),
        || short(black_box(image)),
    )
}

/// The answer is there: bytes written, or a rate.
fn found(answer: Result<usize, u8>) -> usize {
    let number = answer.expect("an image");
    assert!(number > 0, "something that is stored");
    number
}
