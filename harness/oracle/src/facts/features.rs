//! Feature levels, the features epoch, producer ids.

use krabka_metadata::{MetadataImage, MetadataRecord};

use super::Facts;
use super::build::{applied, broker, cut, feature_level, features_epoch, producer_ids, shown};
use crate::verdict::verdict;

pub fn say(facts: &mut Facts) {
    levels(facts);
    epochs(facts);
    restored_epochs(facts);
    producers(facts);
}

fn epoch(records: &[MetadataRecord]) -> i64 {
    applied(records).finalized_features_epoch()
}

fn levels(facts: &mut Facts) {
    let unknown = [feature_level("a", 0)];
    facts.say("epoch after level 0 of an unknown name", epoch(&unknown));
    let negative = applied(&[feature_level("a", -3)]);
    facts.say(
        "a level of -3, stored",
        shown(negative.finalized_feature("a")),
    );
    let removed = applied(&[feature_level("a", 1), feature_level("a", 0)]);
    facts.say(
        "a level of 1 and then 0, stored",
        shown(removed.finalized_feature("a")),
    );
}

fn epochs(facts: &mut Facts) {
    for first in [-5, -1, 0, i64::MAX, i64::MIN] {
        let records = [features_epoch(first), feature_level("a", 1)];
        facts.say(format!("epoch {first} and then a level"), epoch(&records));
    }
}

fn restored_epochs(facts: &mut Facts) {
    let after = |records: &[MetadataRecord]| cut(&applied(records)).finalized_features_epoch();
    let levels = [feature_level("a", 1), feature_level("b", 1)];
    let with = |epoch: i64| [&levels[..], &[features_epoch(epoch)]].concat();
    facts.say("two levels and epoch -5, restored epoch", after(&with(-5)));
    facts.say("two levels and epoch -1, restored epoch", after(&with(-1)));
    facts.say("two levels and epoch 7, restored epoch", after(&with(7)));
    facts.say(
        "no level and epoch -5, restored epoch",
        after(&[features_epoch(-5)]),
    );
    facts.say(
        "no level and epoch 7, restored epoch",
        after(&[features_epoch(7)]),
    );
}

fn producers(facts: &mut Facts) {
    let image = applied(&[
        MetadataRecord::V1BrokerRegistration(broker(1, 4)),
        producer_ids(1, 4, 10),
    ]);
    let cases = [
        ("equal next id", producer_ids(1, 4, 10)),
        ("lower next id at another epoch", producer_ids(1, 5, 9)),
        ("higher next id at another epoch", producer_ids(1, 5, 11)),
        (
            "higher next id of an unknown broker",
            producer_ids(2, 4, 11),
        ),
        ("higher next id", producer_ids(1, 4, 11)),
    ];
    for (what, record) in cases {
        facts.say(
            format!("validate producer ids, {what}"),
            verdict(&image, &record),
        );
        facts.say(
            format!("apply producer ids, {what}"),
            next_after(&image, &record),
        );
    }
    let negative = applied(&[producer_ids(1, 4, -1)]);
    facts.say("next id after -1 on fresh", negative.next_producer_id());
}

/// `apply` does not look at the broker's epoch.
fn next_after(image: &MetadataImage, record: &MetadataRecord) -> i64 {
    let mut image = image.clone();
    image.apply(record);
    image.next_producer_id()
}
