//! Entries such as Apply stores, and such as it does not.

use krabka_metadata::{
    BrokerRegistrationChangeRecord, FencingChange, MetadataRecord, NodeId, PartitionUpdateRecord,
    PatternType, UnregisterBrokerRecord, UnregisterControllerRecord,
};
use wire::{encoded, encoded_offset};

use super::samples::all_kinds;
use super::{Cases, applied};
use crate::facts::build::{
    delete_topic, dir_assignment, elr, feature_level, features_epoch, freeze, group_config, id,
    kraft_version, metrics_config, nodes, offset_advance, partition, partition_record,
    producer_ids, quota, recovered, recovering, thaw, topic_config,
};

pub fn add(cases: &mut Cases) {
    values(cases);
    without_a_topic(cases);
    kinds(cases);
    replicas(cases);
    unreadable(cases);
}

/// Each takes the place of its kind's first entry and keeps the order.
fn values(cases: &mut Cases) {
    let base = applied(&all_kinds());
    for level in [1, -1, i16::MIN, i16::MAX] {
        let entry = encoded(&feature_level("a", level));
        cases.image(format!("level {level}"), base.clone().with(entry).roomy());
    }
    for next in [1, i64::MAX] {
        let entry = encoded(&producer_ids(1, 7, next));
        let layout = base.clone().with(entry);
        cases.image(format!("next producer id {next}"), layout.roomy());
    }
    for next in [0, -1, i64::MIN] {
        let entry = encoded(&producer_ids(1, 7, next));
        let layout = base.clone().with(entry);
        cases.no_image(format!("next producer id {next}"), layout.roomy());
    }
    for count in [0, -1, i64::MIN, i64::MAX] {
        let entry = encoded(&offset_advance("p", 0, count));
        cases.image(format!("offset {count}"), base.clone().with(entry).roomy());
    }
    for (name, record) in good() {
        cases.image(name, base.clone().with(encoded(&record)).roomy());
    }
    for (name, record) in bad() {
        cases.no_image(name, base.clone().with(encoded(&record)).roomy());
    }
}

fn good() -> Vec<(&'static str, MetadataRecord)> {
    let names = [("ip", None), ("ip", Some("")), ("ip", Some("a"))];
    let types = [("ip", Some("b")), ("ip4", Some("a"))];
    vec![
        ("no last known ELR", elr("p", 0, &[1], &[])),
        ("no eligible ELR", elr("p", 0, &[], &[1])),
        ("empty literal scope", freeze("", PatternType::Literal)),
        ("equal quota types", quota(&names, "rate", Some(0.0))),
        (
            "equal quota entities",
            quota(&[names[2]; 8], "rate", Some(0.0)),
        ),
        (
            "a quota type that begins the next",
            quota(&types, "rate", Some(0.0)),
        ),
        ("quota of no entities", quota(&[], "rate", Some(f64::NAN))),
        ("empty quota key", quota(&[("user", None)], "", Some(0.0))),
    ]
}

fn bad() -> Vec<(&'static str, MetadataRecord)> {
    let types = [("user", None), ("ip", None)];
    let names = [("ip", Some("b")), ("ip", Some("a"))];
    let absent = [("ip", Some("")), ("ip", None)];
    vec![
        ("level 0", feature_level("a", 0)),
        ("Recovered", recovered("p", 0)),
        ("thawed freeze", thaw("p", PatternType::Literal)),
        ("two empty ELR lists", elr("p", 0, &[], &[])),
        ("empty topic config", topic_config("p", &[])),
        ("empty metrics config", metrics_config("m", &[])),
        ("empty group config", group_config("g", &[])),
        ("quota types out of order", quota(&types, "rate", Some(0.0))),
        ("quota names out of order", quota(&names, "rate", Some(0.0))),
        ("absent quota name last", quota(&absent, "rate", Some(0.0))),
        (
            "quota without a value",
            quota(&[("user", Some("a"))], "rate", None),
        ),
    ]
}

/// Apply does not validate: what belongs to a topic may stand without one.
fn without_a_topic(cases: &mut Cases) {
    let records = [
        MetadataRecord::V1Partition(partition("lost", -3, &[1, 2])),
        offset_advance("lost", 1, 0),
        elr("lost", 2, &[1], &[]),
        recovering("lost", 3),
        topic_config("lost", &[("", "")]),
    ];
    for record in &records {
        let alone = applied(std::slice::from_ref(record));
        let kind = alone.entries[0][0];
        cases.image(format!("kind {kind} without a topic"), alone.roomy());
    }
    cases.image("all without a topic", applied(&records).roomy());
}

/// Two replicas that differ in one byte, and the image where that byte is
/// changed so that they meet; a repeat among 64; and repeats in other lists.
fn replicas(cases: &mut Cases) {
    let base = applied(&all_kinds());
    let with = |nodes: &[u64]| {
        let entry = encoded(&partition_record("p", 0, nodes));
        base.clone().with(entry).roomy()
    };
    for bit in [0, 8, 16, 24, 32, 40, 48, 56, 63] {
        let node = 1 << bit;
        cases.image(format!("replicas apart in bit {bit}"), with(&[0, node]));
        cases.no_image(format!("replicas that meet in bit {bit}"), with(&[node; 2]));
    }
    let many: Vec<u64> = (1..=64).collect();
    cases.image("64 replicas", with(&many));
    for (first, last) in [(0, 1), (0, 63), (31, 32), (62, 63)] {
        let mut nodes = many.clone();
        nodes[last] = nodes[first];
        cases.no_image(format!("replicas {first} and {last} of 64"), with(&nodes));
    }
    let mut others = partition("p", 0, &[1, 2]);
    others.isr = nodes(&[1, 1]);
    others.adding_replicas = nodes(&[3, 3]);
    others.removing_replicas = nodes(&[2, 2]);
    let entry = encoded(&MetadataRecord::V1Partition(others));
    cases.image("repeats beside the replicas", base.with(entry).roomy());
}

/// Kinds that are never entries, before, between and after the others.
fn kinds(cases: &mut Cases) {
    let base = applied(&all_kinds());
    let levels = base.place_of(11) + 2;
    let offset = encoded_offset(0);
    for entry in never_stored().iter().map(encoded).chain([offset]) {
        let kind = entry[0];
        for place in [0, levels, base.entries.len()] {
            let layout = base.clone().insert(place, entry.clone());
            cases.no_image(format!("kind {kind} as entry {place}"), layout.roomy());
        }
        let alone = applied(&[]).append(entry);
        cases.no_image(format!("kind {kind} alone"), alone.roomy());
    }
    for kind in [0, 26, 27, 255] {
        let entry = vec![kind, 0, 0];
        cases.no_image(format!("kind {kind}"), base.clone().append(entry).roomy());
    }
}

fn never_stored() -> Vec<MetadataRecord> {
    let node_id = NodeId(1);
    vec![
        kraft_version(1),
        features_epoch(1),
        delete_topic("p"),
        MetadataRecord::V1UnregisterBroker(UnregisterBrokerRecord {
            node_id,
            broker_epoch: 7,
        }),
        dir_assignment("p", 0, 1, 1),
        MetadataRecord::V1DeleteBreakGlassProposal(id(9)),
        MetadataRecord::V1PartitionUpdate(PartitionUpdateRecord {
            partition: partition("p", 0, &[1]),
            eligible_leader_replicas: None,
            last_known_elr: None,
            recovery_state: None,
        }),
        MetadataRecord::V1BrokerRegistrationChange(BrokerRegistrationChangeRecord {
            node_id,
            broker_epoch: 7,
            fenced: FencingChange::None,
            in_controlled_shutdown: false,
            log_dirs: Vec::new(),
            cordoned_log_dirs: None,
        }),
        MetadataRecord::V1UnregisterController(UnregisterControllerRecord { node_id }),
    ]
}

fn unreadable(cases: &mut Cases) {
    let level = |name: &[u8]| {
        let fields = [&[1, (name.len() >> 8) as u8, name.len() as u8], name].concat();
        let body = [&fields[..], &[2, 0, 2, 0, 1]].concat();
        let header = [11, (body.len() >> 8) as u8, body.len() as u8];
        [&header, &body[..]].concat()
    };
    let one = |entry: Vec<u8>| applied(&[]).append(entry).roomy();
    cases.image("a name of 255 bytes", one(level(&[b'n'; 255])));
    cases.no_image("a name of 256 bytes", one(level(&[b'n'; 256])));
    cases.no_image("a name that is no UTF-8", one(level(&[0xff])));
    let mut long = level(b"a");
    long.extend([3, 0, 0]);
    long[2] += 3;
    cases.no_image("a field too many", one(long));
    let mut torn = level(b"a");
    torn.pop();
    cases.no_image("a torn last entry", one(torn));
    cases.no_image("two bytes of an entry", one(vec![11, 0]));
    cases.no_image("an entry without fields", one(vec![11, 0, 0]));
}
