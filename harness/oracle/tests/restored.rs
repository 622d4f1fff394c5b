//! The reference's restored image, on generated histories, is the one that
//! 01's paragraph "Restored image" computes from the contents.

use std::collections::{BTreeMap, BTreeSet};

use krabka_metadata::{FeaturesEpochRecord, MetadataImage, MetadataRecord, TopicRecord};
use oracle::generate::{Generator, Knobs};
use oracle::observe::{Observed, Witness, observe, restored, same_record};
use oracle::order;
use uuid::Uuid;

const HISTORIES: u64 = 300;
const STEPS: usize = 80;
/// After how many steps a restore is looked at.
const EVERY: usize = 20;

fn topics(observed: &Observed) -> impl Iterator<Item = &TopicRecord> {
    observed.records.iter().filter_map(|record| match record {
        MetadataRecord::V1Topic(topic) => Some(topic),
        _ => None,
    })
}

/// The replica counts of a topic's partitions, by partition number.
fn replica_counts(observed: &Observed, topic: &str) -> BTreeMap<i32, usize> {
    let count = |record: &MetadataRecord| match record {
        MetadataRecord::V1Partition(p) if p.topic == topic => Some((p.partition, p.replicas.len())),
        _ => None,
    };
    observed.records.iter().filter_map(count).collect()
}

/// Each topic's count is its stored partitions' number; its replication
/// factor is its highest partition's replica count, if it has one.
fn expected_topic(observed: &Observed, topic: &TopicRecord) -> TopicRecord {
    let counts = replica_counts(observed, &topic.name);
    TopicRecord {
        partitions: counts.len() as i32,
        replication_factor: match counts.last_key_value() {
            Some((_, replicas)) => *replicas as i16,
            None => topic.replication_factor,
        },
        ..topic.clone()
    }
}

/// A negative epoch becomes the number of levels minus 1.
fn expected_epoch(observed: &Observed) -> i64 {
    let is_level = |record: &&MetadataRecord| matches!(record, MetadataRecord::V1FeatureLevel(_));
    let levels = observed.records.iter().filter(is_level).count();
    match observed.epoch < 0 {
        true => levels as i64 - 1,
        false => observed.epoch,
    }
}

/// The snapshot of the restored image: an epoch that is no longer negative
/// has a record.
fn expected_records(observed: &Observed) -> Vec<MetadataRecord> {
    let mut records = observed.records.clone();
    for record in &mut records {
        if let MetadataRecord::V1Topic(topic) = record {
            *topic = expected_topic(observed, topic);
        }
    }
    let epoch = expected_epoch(observed);
    if observed.epoch < 0 && epoch >= 0 {
        records.push(MetadataRecord::V1FeaturesEpoch(FeaturesEpochRecord {
            epoch,
        }));
        order::sort(&mut records);
    }
    records
}

/// Each stored topic's id names it, the greatest name where shared.
fn expected_named(observed: &Observed) -> BTreeMap<String, bool> {
    let greatest = |topic: &TopicRecord| {
        topics(observed).all(|other| other.topic_id != topic.topic_id || other.name <= topic.name)
    };
    topics(observed)
        .map(|topic| (topic.name.clone(), greatest(topic)))
        .collect()
}

fn expected(observed: &Observed) -> Observed {
    Observed {
        records: expected_records(observed),
        named: expected_named(observed),
        empty_brokers: BTreeSet::new(),
        empty_quotas: BTreeSet::new(),
        epoch: expected_epoch(observed),
        ..observed.clone()
    }
}

/// The parts of the paragraph that a restore showed.
fn shown(before: &Observed, after: &Observed) -> Vec<&'static str> {
    let pairs = || topics(before).zip(topics(after));
    let parts = [
        ("count", pairs().any(|(b, a)| b.partitions != a.partitions)),
        (
            "factor",
            pairs().any(|(b, a)| b.replication_factor != a.replication_factor),
        ),
        ("named", before.named != after.named),
        ("shared id", after.named.values().any(|named| !named)),
        ("empty brokers", !before.empty_brokers.is_empty()),
        ("empty quotas", !before.empty_quotas.is_empty()),
        ("epoch", before.epoch != after.epoch),
        ("short", after.short > 0),
        ("kraft", after.kraft > 0),
    ];
    let parts = parts.into_iter().filter(|(_, shown)| *shown);
    parts.map(|(part, _)| part).collect()
}

fn assert_equal(now: &Observed, then: &Observed, place: &str) {
    for (now, then) in now.records.iter().zip(&then.records) {
        assert!(same_record(now, then), "{place}: {now:?} is not {then:?}");
    }
    assert!(now == then, "{place}: {now:?} is not {then:?}");
}

/// Runs a history and returns what its restores showed.
fn run(seed: u64, knobs: Knobs) -> BTreeSet<&'static str> {
    let mut image = MetadataImage::new(Uuid::nil());
    let mut witness = Witness::default();
    let mut seen = BTreeSet::new();
    for (step, record) in Generator::new(seed, knobs)
        .history(STEPS)
        .iter()
        .enumerate()
    {
        witness.see(record);
        if knobs.applies(&image, record) {
            image.apply(record);
        }
        if (step + 1) % EVERY == 0 {
            let before = observe(&image, &witness);
            let after = observe(&restored(&before), &witness);
            assert_equal(
                &after,
                &expected(&before),
                &format!("seed {seed}, step {step}"),
            );
            seen.extend(shown(&before, &after));
        }
    }
    seen
}

#[test]
fn restored_images_are_those_of_01() {
    let mut seen = BTreeSet::new();
    for seed in 0..HISTORIES {
        let knobs = Knobs {
            validated: seed % 3 != 0,
            old_names: seed % 3 == 0,
            ..Knobs::default()
        };
        seen.extend(run(seed, knobs));
    }
    assert_eq!(seen.len(), 9, "parts of the paragraph: {seen:?}");
}

/// Under demand 3's premises a restore changes empty groups only.
#[test]
fn restored_images_under_the_premises() {
    let mut seen = BTreeSet::new();
    for seed in 0..HISTORIES / 3 {
        let knobs = Knobs {
            premises: true,
            ..Knobs::default()
        };
        seen.extend(run(seed, knobs));
    }
    let parts = ["empty brokers", "empty quotas", "kraft", "short"];
    assert_eq!(seen, BTreeSet::from(parts));
}
