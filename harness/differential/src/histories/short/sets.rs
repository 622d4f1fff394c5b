//! The sets of records.

use krabka_metadata::{FencingChange, LeaderRecoveryState, MetadataRecord, PatternType};
use oracle::facts::build::{
    broker_config, delete_topic, dir_assignment, elr, feature_level, features_epoch, freeze,
    group_config, id, kraft_version, metrics_config, offset_advance, partition, partition_record,
    producer_ids, quota, recovered, recovering, thaw, topic, topic_config,
};
use oracle::short_history::MOST_RECORDS;

use super::records::{
    change, controller, delete_proposal, proposal, registration, unregister, unregister_controller,
    update,
};

pub type Set = (&'static str, Vec<MetadataRecord>);

/// The sets, those of more than eight records as two of eight that overlap: in
/// them what stands first and what stands last does not meet.
pub fn eights() -> Vec<Set> {
    let mut all = Vec::new();
    for (name, records) in sets() {
        let left_out = records.len().saturating_sub(MOST_RECORDS);
        if left_out > 0 {
            all.push((name, records[left_out..].to_vec()));
        }
        all.push((name, records[..records.len() - left_out].to_vec()));
    }
    all
}

fn sets() -> [Set; 14] {
    [
        ("topics and ids", topics()),
        ("partitions of topics", partitions()),
        ("what leaves with a topic", deleted()),
        ("broker configs", broker_configs()),
        ("quotas", quotas()),
        ("brokers", brokers()),
        ("controllers and KRaft versions", controllers()),
        ("ELR and recovery", states()),
        ("directories", directories()),
        ("feature levels and the epoch", features()),
        ("offsets", offsets()),
        ("freezes", freezes()),
        ("proposals", proposals()),
        ("configs by name", configs()),
    ]
}

/// An id under two names, a name with two ids, and deletions.
fn topics() -> Vec<MetadataRecord> {
    vec![
        topic("p", 1, 0, 1),
        topic("p", 2, 5, 1),
        topic("p", 1, 9, 2),
        topic("q", 1, 0, 1),
        topic("q", 2, 0, 1),
        delete_topic("p"),
        delete_topic("q"),
        partition_record("q", 0, &[1]),
    ]
}

/// Partitions before and after their topic, again with other replicas.
fn partitions() -> Vec<MetadataRecord> {
    vec![
        topic("p", 1, 0, 1),
        topic("pp", 2, 0, 1),
        delete_topic("p"),
        partition_record("p", 0, &[1, 2]),
        partition_record("p", 0, &[1, 2, 3]),
        partition_record("p", -1, &[]),
        partition_record("p", 1, &[1]),
        partition_record("pp", 0, &[3]),
    ]
}

/// Each kind of entry that a deletion takes along, and at both ends one that
/// stays.
fn deleted() -> Vec<MetadataRecord> {
    vec![
        offset_advance("pp", 0, 5),
        topic("p", 1, 0, 1),
        delete_topic("p"),
        partition_record("p", 0, &[1]),
        offset_advance("p", 0, 5),
        elr("p", 0, &[1], &[]),
        recovering("p", 1),
        topic_config("p", &[("a", "b")]),
        freeze("p", PatternType::Literal),
    ]
}

/// Configs of three nodes set and cleared; the empty name is one of them.
fn broker_configs() -> Vec<MetadataRecord> {
    vec![
        broker_config(1, "a", Some("x")),
        broker_config(1, "a", Some("yyy")),
        broker_config(1, "a", None),
        broker_config(1, "", Some("")),
        broker_config(1, "", None),
        broker_config(2, "b", Some("x")),
        broker_config(2, "b", None),
        broker_config(u64::MAX, "a", None),
    ]
}

/// Entities of two types in two orders: one key.
fn quotas() -> Vec<MetadataRecord> {
    let (user, client) = (("user", Some("a")), ("client-id", None));
    let other = ("user", Some("b"));
    vec![
        quota(&[user, client], "rate", Some(1.0)),
        quota(&[client, user], "rate", Some(-0.0)),
        quota(&[client, user], "rate", None),
        quota(&[user, client], "", None),
        quota(&[other, client], "rate", Some(f64::NAN)),
        quota(&[client, other], "rate", Some(2.0)),
        quota(&[client, other], "rate", None),
        quota(&[], "", Some(0.0)),
        quota(&[], "", None),
    ]
}

/// Registrations at two epochs, their changes and their ends, and producer ids.
fn brokers() -> Vec<MetadataRecord> {
    vec![
        registration(2, 1),
        change(1, 1, FencingChange::Unfence, &[], Some(&[5])),
        registration(1, 1),
        registration(1, 2),
        change(1, 1, FencingChange::Fence, &[3, 4], Some(&[])),
        change(1, 2, FencingChange::None, &[], None),
        unregister(1, 1),
        unregister(1, 2),
        producer_ids(1, 1, 5),
        producer_ids(1, 2, 4),
    ]
}

fn controllers() -> Vec<MetadataRecord> {
    vec![
        kraft_version(1),
        controller(1, 1, None),
        controller(1, 2, Some("kraft.version")),
        controller(2, 1, Some("")),
        unregister_controller(1),
        unregister_controller(2),
        kraft_version(0),
        kraft_version(u16::MAX),
        registration(1, 1),
    ]
}

/// ELR and recovery by an update and by records of their own.
fn states() -> Vec<MetadataRecord> {
    let (done, going) = (
        LeaderRecoveryState::Recovered,
        LeaderRecoveryState::Recovering,
    );
    vec![
        elr("p", 0, &[], &[2, 3]),
        elr("p", 0, &[], &[]),
        recovered("p", 0),
        partition_record("p", 0, &[1]),
        elr("p", 0, &[1], &[]),
        recovering("p", 0),
        update(Some(&[4]), Some(&[]), Some(going)),
        update(Some(&[]), Some(&[]), Some(done)),
        update(Some(&[5]), None, None),
        update(None, None, Some(going)),
        topic("p", 1, 0, 1),
    ]
}

/// Slots: with fewer directories than replicas, with more, with none.
fn directories() -> Vec<MetadataRecord> {
    let mut longer = partition("p", 0, &[1, 2]);
    longer.directories = [6, 7, 8].map(id).to_vec();
    let mut shorter = partition("p", 0, &[1, 2, 3]);
    shorter.directories = vec![id(6)];
    vec![
        MetadataRecord::V1Partition(longer),
        MetadataRecord::V1Partition(shorter),
        partition_record("p", 1, &[2]),
        dir_assignment("p", 0, 3, 9),
        dir_assignment("p", 0, 2, 9),
        dir_assignment("p", 0, 1, 0),
        dir_assignment("p", 0, 4, 9),
        dir_assignment("p", 1, 2, 9),
    ]
}

fn features() -> Vec<MetadataRecord> {
    vec![
        feature_level("a", 1),
        feature_level("a", i16::MIN),
        feature_level("a", 0),
        feature_level("", 1),
        feature_level("", 0),
        features_epoch(-5),
        features_epoch(7),
        features_epoch(i64::MAX),
        features_epoch(i64::MIN),
    ]
}

/// Sums at both ends of i64, and beyond them.
fn offsets() -> Vec<MetadataRecord> {
    vec![
        offset_advance("q", -1, i64::MAX),
        offset_advance("p", 0, i64::MAX),
        offset_advance("p", 0, i64::MIN),
        offset_advance("p", 0, i64::MAX - 1),
        offset_advance("p", 0, 1),
        offset_advance("p", 0, -1),
        offset_advance("p", 0, 0),
        offset_advance("p", 1, i64::MIN),
        delete_topic("p"),
    ]
}

fn freezes() -> Vec<MetadataRecord> {
    let (literal, prefixed) = (PatternType::Literal, PatternType::Prefixed);
    vec![
        freeze("r", literal),
        freeze("r", prefixed),
        freeze("ro", literal),
        freeze("", prefixed),
        freeze("", literal),
        thaw("r", literal),
        thaw("r", prefixed),
        thaw("ro", prefixed),
        thaw("", literal),
    ]
}

fn proposals() -> Vec<MetadataRecord> {
    vec![
        proposal(1, &[], 0, false),
        proposal(1, &["a"], 0, false),
        proposal(1, &["a", "b"], 0, false),
        proposal(1, &["b"], 0, false),
        proposal(1, &["a"], -1, false),
        proposal(1, &["a"], 0, true),
        proposal(2, &["a"], 5, true),
        delete_proposal(1),
        delete_proposal(2),
    ]
}

/// The same name among topics, metrics and groups.
fn configs() -> Vec<MetadataRecord> {
    vec![
        topic_config("a", &[("k", "v")]),
        topic_config("a", &[("k", "v"), ("l", "")]),
        topic_config("a", &[]),
        metrics_config("a", &[("k", "v")]),
        metrics_config("a", &[]),
        metrics_config("", &[("", "")]),
        group_config("a", &[("k", "v")]),
        group_config("a", &[("", "longer"), ("k", "w")]),
        group_config("a", &[]),
    ]
}
