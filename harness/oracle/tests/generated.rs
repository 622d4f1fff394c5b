//! What generated histories hold.

use std::collections::BTreeSet;

use krabka_metadata::{DEFAULT_BROKER_CONFIG_NODE_ID, MetadataImage, MetadataRecord};
use oracle::generate::{Generator, Knobs};
use oracle::held::is_held;
use oracle::kind::kind;
use oracle::names::is_lawful;
use oracle::observe::{same_record, same_records};
use oracle::verdict::{ACCEPTED, UNLAWFUL_NAME, judged, offset_leaves_i64};
use uuid::Uuid;
use wire::encoded;

const HISTORIES: u64 = 200;
const STEPS: usize = 80;

/// Histories in which every record is applied, old names among them.
fn with_old_names() -> Knobs {
    Knobs {
        validated: false,
        old_names: true,
        ..Knobs::default()
    }
}

/// Gives every step of every history to `look`, with the image before it.
fn each_step(knobs: Knobs, mut look: impl FnMut(&MetadataImage, &MetadataRecord)) {
    for seed in 0..HISTORIES {
        let mut image = MetadataImage::new(Uuid::nil());
        for record in Generator::new(seed, knobs).history(STEPS) {
            look(&image, &record);
            if knobs.applies(&image, &record) {
                image.apply(&record);
            }
        }
    }
}

#[test]
fn equal_seeds_give_equal_histories() {
    for seed in 0..20 {
        let history = || Generator::new(seed, Knobs::default()).history(STEPS);
        assert!(same_records(&history(), &history()), "seed {seed}");
    }
}

#[test]
fn every_kind_is_accepted_and_every_refusal_is_met() {
    let mut kinds = BTreeSet::new();
    let mut verdicts = BTreeSet::new();
    let mut left = false;
    each_step(Knobs::default(), |image, record| {
        let number = judged(image, record);
        verdicts.insert(number);
        if number == ACCEPTED {
            kinds.extend(kind(record));
        }
        left |= offset_leaves_i64(image, record);
    });
    assert_eq!(kinds, (1..=25).collect());
    assert_eq!(verdicts, [ACCEPTED].into_iter().chain(6..=16).collect());
    assert!(left, "an offset leaves i64");
}

#[test]
fn most_records_are_accepted() {
    let mut accepted = 0;
    each_step(Knobs::default(), |image, record| {
        accepted += usize::from(judged(image, record) == ACCEPTED);
    });
    let all = HISTORIES as usize * STEPS;
    assert!(accepted * 100 > all * 80, "{accepted} of {all}");
    assert!(accepted * 100 < all * 95, "{accepted} of {all}");
}

/// A generated record is within every limit, and its bytes keep it.
#[test]
fn records_go_through_their_bytes() {
    each_step(Knobs::default(), |_, record| {
        let bytes = wire::encode(record).expect("a kind of 01");
        let (read, used) = wire::decode(&bytes).expect("a record within the limits");
        assert!(same_record(&read, record), "{read:?} is not {record:?}");
        assert_eq!(used, bytes.len());
    });
}

fn signalling(value: f64) -> bool {
    value.is_nan() && value.to_bits() & (1 << 51) == 0
}

/// 02: "Quotas held against the Rust name each type once."
#[test]
fn quotas_name_each_type_once() {
    each_step(Knobs::default(), |_, record| {
        assert!(is_held(&encoded(record)), "{record:?}");
    });
}

/// What a record may have that is easy to get wrong.
type Corner = (&'static str, fn(&MetadataRecord) -> bool);

macro_rules! corners {
    ($($name:literal: $kind:ident($record:ident) if $holds:expr;)*) => {
        [$(($name, |record| match record {
            MetadataRecord::$kind($record) => $holds,
            _ => false,
        })),*]
    };
}

const CORNERS: [Corner; 22] = corners! {
    "name of 249 bytes": V1Topic(r) if r.name.len() == 249;
    "name of dots": V1Topic(r) if r.name == "...";
    "i16 end": V1Topic(r) if r.replication_factor == i16::MIN;
    "i32 end": V1Topic(r) if r.partitions == i32::MAX;
    "64 replicas": V1Partition(r) if r.replicas.len() == 64;
    "64 directories": V1Partition(r) if r.directories.len() == 64;
    "more directories": V1Partition(r) if r.directories.len() > r.replicas.len();
    "default node": V1BrokerConfig(r) if r.node_id == DEFAULT_BROKER_CONFIG_NODE_ID;
    "removed config": V1BrokerConfig(r) if r.config_value.is_none();
    "odd throttle": V1BrokerConfig(r) if r.config_name.contains("throttled")
        && r.config_value.as_deref() == Some("+-1");
    "signalling NaN": V1ClientQuota(r) if r.config_value.is_some_and(signalling);
    "8 entities": V1ClientQuota(r) if r.entity.len() == 8;
    "no entities": V1ClientQuota(r) if r.entity.is_empty();
    "64 configs": V1TopicConfig(r) if r.overrides.len() == 64;
    "no configs": V1TopicConfig(r) if r.overrides.is_empty();
    "i64 end": V1PartitionOffsetAdvance(r) if r.count == i64::MIN;
    "negative epoch": V1FeaturesEpoch(r) if r.epoch < -1;
    "16 approvals": V1BreakGlassProposal(r) if r.approvals.len() == 16;
    "prefix of internal names": V1TopicFreeze(r) if r.scope == "__" && r.frozen;
    "empty scope": V1TopicFreeze(r) if r.scope.is_empty();
    "signature of 512 bytes": V1TopicFreeze(r) if r.signature.len() == 512;
    "empty cordoned dirs": V1BrokerRegistrationChange(r)
        if r.cordoned_log_dirs.as_deref() == Some(&[]);
};

/// What an old name may be.
const OLD_CORNERS: [Corner; 5] = corners! {
    "name of 255 bytes": V1Topic(r) if r.name.len() == 255;
    "empty name": V1Topic(r) if r.name.is_empty();
    "four-byte character": V1Topic(r) if r.name.contains('𝄞');
    "slash": V1Topic(r) if r.name == "Smith/2";
    "two dots": V1Topic(r) if r.name == "..";
};

fn are_met(corners: &[Corner], knobs: Knobs) {
    let mut met = BTreeSet::new();
    each_step(knobs, |_, record| {
        let here = corners.iter().filter(|(_, holds)| holds(record));
        met.extend(here.map(|(name, _)| *name));
    });
    assert_eq!(met, corners.iter().map(|(name, _)| *name).collect());
}

#[test]
fn corners_are_met() {
    are_met(&CORNERS, Knobs::default());
    are_met(&OLD_CORNERS, with_old_names());
}

/// Lawful names alone, but where old ones are asked for: there a stored topic
/// with such a name is met again, which is 24 although the name is stored.
#[test]
fn names_are_lawful_but_where_old_ones_are_asked_for() {
    each_step(Knobs::default(), |image, record| {
        if let MetadataRecord::V1Topic(topic) = record {
            assert!(is_lawful(&topic.name), "{:?}", topic.name);
        }
        assert_ne!(judged(image, record), UNLAWFUL_NAME);
    });
    let mut again = false;
    each_step(with_old_names(), |image, record| {
        if let MetadataRecord::V1Topic(topic) = record {
            let unlawful = judged(image, record) == UNLAWFUL_NAME;
            again |= unlawful && image.topic(&topic.name).is_some();
        }
    });
    assert!(again, "a stored old topic is given again");
}

/// Whether no two stored topics share an id, every partition of a stored
/// topic has its replication factor of replicas, and the epoch is no negative
/// one that a record gave.
fn keeps_premises(image: &MetadataImage) -> bool {
    let ids: BTreeSet<Uuid> = image.topics().map(|topic| topic.topic_id).collect();
    let factors = image.topics().all(|topic| {
        let factor = usize::try_from(topic.replication_factor);
        let mut partitions = image.partitions_of(&topic.name);
        partitions.all(|partition| Ok(partition.replicas.len()) == factor)
    });
    ids.len() == image.topics().count() && factors && image.finalized_features_epoch() >= -1
}

#[test]
fn premises_are_kept_where_asked_for() {
    let knobs = Knobs {
        premises: true,
        ..Knobs::default()
    };
    each_step(knobs, |image, _| assert!(keeps_premises(image)));
    let mut broken = false;
    each_step(Knobs::default(), |image, _| {
        broken |= !keeps_premises(image)
    });
    assert!(broken, "other histories leave the premises");
}
