//! Topics: the id index, `TopicExists`, deletion.

use krabka_metadata::{MetadataImage, MetadataRecord, PatternType};

use super::Facts;
use super::build::{
    applied, cut, delete_topic, elr, freeze, id, offset_advance, partition_record, recovering,
    shown, topic, topic_config,
};
use super::freezes::covering;
use crate::kind::kind;
use crate::verdict::verdict;

pub fn say(facts: &mut Facts) {
    shared_ids(facts);
    changed_ids(facts);
    restored_ids(facts);
    topic_exists(facts);
    factors(facts);
    deleted_without_topic(facts);
    deleted_with_freeze(facts);
}

fn named(image: &MetadataImage, number: u64) -> String {
    let topic = image.topic_by_id(&id(number)).map(|topic| &topic.name);
    let name = image.topic_name_by_id(&id(number));
    assert_eq!(
        topic.map(String::as_str),
        name,
        "an id names a stored topic"
    );
    shown(name)
}

fn shared(more: &[MetadataRecord]) -> MetadataImage {
    let mut records = vec![topic("a", 1, 0, 1), topic("b", 1, 0, 1)];
    records.extend_from_slice(more);
    applied(&records)
}

/// Says what ids name, of topics a and b of id 1 and what came `after`.
fn say_ids(facts: &mut Facts, after: &str, image: &MetadataImage, ids: &[u64]) {
    for id in ids {
        let what = format!("topics a and b of id 1{after}, id {id}");
        facts.say(what, named(image, *id));
    }
}

fn shared_ids(facts: &mut Facts) {
    say_ids(facts, "", &shared(&[]), &[1]);
    let deleted = shared(&[delete_topic("b")]);
    say_ids(facts, ", b deleted", &deleted, &[1]);
    let other = shared(&[delete_topic("a")]);
    say_ids(facts, ", a deleted", &other, &[1]);
    facts.say(
        "topics a and b of id 1, a deleted, b stored",
        other.topic("b").is_some(),
    );
    let again = shared(&[topic("a", 1, 0, 1)]);
    say_ids(facts, ", a given again", &again, &[1]);
}

fn changed_ids(facts: &mut Facts) {
    let changed = shared(&[topic("a", 2, 0, 1)]);
    say_ids(facts, ", a changed to id 2", &changed, &[1, 2]);
    let back = shared(&[topic("a", 2, 0, 1), topic("b", 1, 0, 1)]);
    say_ids(facts, ", a changed to id 2, b given again", &back, &[1]);
}

fn restored_ids(facts: &mut Facts) {
    for (after, record) in [
        ("a given last", topic("a", 1, 0, 1)),
        ("b deleted", delete_topic("b")),
        ("a changed to id 2", topic("a", 2, 0, 1)),
    ] {
        let what = format!("topics a and b of id 1, {after}, restored id 1");
        facts.say(what, named(&cut(&shared(&[record])), 1));
    }
}

/// The stored count, 0, differs from the stored partitions' number, 1.
fn topic_exists(facts: &mut Facts) {
    let image = applied(&[partition_record("p", 1, &[1]), topic("p", 1, 9, 1)]);
    let stored = image.topic("p").map(|topic| topic.partitions);
    facts.say(
        "partition 1 of p, then topic p, stored count",
        shown(stored),
    );
    let tries = [
        ("count 1", topic("p", 1, 1, 1)),
        ("count 2", topic("p", 1, 2, 1)),
        ("count 2 and another id", topic("p", 2, 2, 1)),
        ("count 2 and another factor", topic("p", 1, 2, 3)),
    ];
    for (what, record) in tries {
        facts.say(
            format!("validate p again with {what}"),
            verdict(&image, &record),
        );
    }
    let less = topic("q", 2, -1, -1);
    facts.say("validate a new topic with count -1", verdict(&image, &less));
    let slash = topic("Smith/2", 2, 1, 1);
    facts.say("validate a new topic Smith/2", verdict(&image, &slash));
}

fn factors(facts: &mut Facts) {
    let image = applied(&[
        topic("p", 1, 0, 3),
        partition_record("p", 0, &[1, 2, 3]),
        partition_record("p", 1, &[1]),
        partition_record("p", 0, &[1, 2]),
    ]);
    let factor = |image: &MetadataImage| shown(image.topic("p").map(|t| t.replication_factor));
    facts.say(
        "partition 1 of one replica, then 0 of two, factor",
        factor(&image),
    );
    facts.say(
        "partition 1 of one replica, then 0 of two, factor restored",
        factor(&cut(&image)),
    );
    let alone = applied(&[topic("p", 1, 7, 3)]);
    facts.say(
        "a topic without partitions, factor restored",
        factor(&cut(&alone)),
    );
}

fn deleted_without_topic(facts: &mut Facts) {
    let records = [
        partition_record("p", 0, &[1]),
        offset_advance("p", 0, 5),
        elr("p", 0, &[1], &[]),
        recovering("p", 0),
        topic_config("p", &[("k", "v")]),
        partition_record("q", 0, &[1]),
    ];
    let mut image = applied(&records);
    facts.say("p without a topic, kinds stored", kinds(&image));
    facts.say(
        "p without a topic, validate its deletion",
        verdict(&image, &delete_topic("p")),
    );
    image.apply(&delete_topic("p"));
    facts.say("p without a topic, kinds after its deletion", kinds(&image));
}

fn kinds(image: &MetadataImage) -> String {
    let mut kinds: Vec<u8> = image.to_records().iter().filter_map(kind).collect();
    kinds.sort_unstable();
    format!("{kinds:?}")
}

fn deleted_with_freeze(facts: &mut Facts) {
    let image = applied(&[
        topic("p", 1, 0, 1),
        freeze("p", PatternType::Literal),
        delete_topic("p"),
    ]);
    facts.say("a deleted topic's freeze", covering(&image, "p"));
}
