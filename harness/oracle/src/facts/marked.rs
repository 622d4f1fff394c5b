//! 01's marked cases that the reference has an answer to. M1, M2 and M8 are
//! about bytes and room, which the reference lacks; M9's plus 1 is in
//! `offsets`.

use krabka_metadata::{MetadataImage, MetadataRecord, PatternType};

use super::Facts;
use super::build::{
    applied, cut, dir_assignment, feature_level, freeze, id, numbers, offset_advance, partition,
    partition_record, producer_ids, shown, topic,
};
use super::freezes::covering;
use crate::verdict::verdict;

pub fn say(facts: &mut Facts) {
    features(facts);
    producers(facts);
    prefixes(facts);
    counts(facts);
    let most = [offset_advance("p", 0, i64::MAX), offset_advance("p", 0, 0)];
    let offset = applied(&most).partition_next_offset("p", 0);
    facts.say("M9 offset 2^63 - 1 plus 0", shown(offset));
    directories(facts);
}

fn features(facts: &mut Facts) {
    let records = [feature_level("a", 1), feature_level("a", 0)];
    let epoch = |count: usize| applied(&records[..count]).finalized_features_epoch();
    let epochs = format!("{}, {}, {}", epoch(0), epoch(1), epoch(2));
    facts.say("M3 epochs of fresh, a=1, a=0", epochs);
}

fn producers(facts: &mut Facts) {
    let zero = producer_ids(1, 0, 0);
    facts.say(
        "M4 next id 0 on fresh, validate",
        verdict(&applied(&[]), &zero),
    );
    let records = applied(&[zero]).to_records().len();
    facts.say("M4 next id 0 on fresh, records after apply", records);
}

fn prefixes(facts: &mut Facts) {
    let rooms = applied(&[
        freeze("ro", PatternType::Prefixed),
        freeze("room", PatternType::Prefixed),
    ]);
    facts.say(
        "M5 prefixes ro and room, freeze of room-7",
        covering(&rooms, "room-7"),
    );
    facts.say(
        "M5 prefixes ro and room, freeze of r",
        covering(&rooms, "r"),
    );
    let internal = applied(&[freeze("__", PatternType::Prefixed)]);
    facts.say(
        "M6 prefix __, freeze of __room",
        covering(&internal, "__room"),
    );
}

fn count(image: &MetadataImage) -> String {
    shown(image.topic("p").map(|topic| topic.partitions))
}

fn counts(facts: &mut Facts) {
    let image = applied(&[partition_record("p", 1, &[1]), topic("p", 1, 9, 1)]);
    facts.say(
        "M7 partition 1 of p, then topic p with count 9, count",
        count(&image),
    );
    facts.say(
        "M7 partition 1 of p, then topic p with count 9, count restored",
        count(&cut(&image)),
    );
}

fn directories(facts: &mut Facts) {
    let mut stored = partition("p", 0, &[1, 2, 3]);
    stored.directories = vec![id(0xD)];
    let image = applied(&[
        MetadataRecord::V1Partition(stored),
        dir_assignment("p", 0, 3, 0xE),
    ]);
    let directories = &image.partition("p", 0).expect("it is stored").directories;
    facts.say("M10 directories", numbers(directories));
}
