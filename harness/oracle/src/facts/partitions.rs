//! Directories of partitions, eligible leaders, recovery, the short count.

use krabka_metadata::{
    LeaderRecoveryState, MetadataImage, MetadataRecord, NodeId, PartitionUpdateRecord,
};

use super::Facts;
use super::build::{
    applied, dir_assignment, elr, id, nodes, numbers, partition, partition_record, recovering,
    shown,
};
use crate::observe::{Witness, observe};
use crate::verdict::verdict;

pub fn say(facts: &mut Facts) {
    directories(facts);
    eligible_leaders(facts);
    recovery(facts);
    unknown_partitions(facts);
    short(facts);
    short_on_the_move(facts);
    downgrade(facts);
    passes(facts);
}

fn assigned(replicas: &[u64], directories: &[u64], replica: u64) -> String {
    let mut stored = partition("p", 0, replicas);
    stored.directories = directories.iter().copied().map(id).collect();
    let image = applied(&[
        MetadataRecord::V1Partition(stored),
        dir_assignment("p", 0, replica, 0xE),
    ]);
    numbers(&image.partition("p", 0).expect("it is stored").directories)
}

fn directories(facts: &mut Facts) {
    let cases: [(&str, &[u64], &[u64], u64); 5] = [
        ("none before", &[1, 2], &[], 1),
        ("more than replicas", &[1, 2], &[5, 6, 7, 8], 2),
        ("two slots of the replica", &[1, 2, 2], &[5, 6, 7], 2),
        ("an unknown replica", &[1, 2], &[5], 3),
        ("no replicas", &[], &[5], 1),
    ];
    for (what, replicas, before, replica) in cases {
        let after = assigned(replicas, before, replica);
        facts.say(format!("directories with {what}"), after);
    }
    let unknown = applied(&[dir_assignment("p", 0, 1, 0xE)]);
    facts.say(
        "directories of an unknown partition, records",
        unknown.to_records().len(),
    );
}

fn update(eligible: Option<&[u64]>, last_known: Option<&[u64]>) -> MetadataRecord {
    MetadataRecord::V1PartitionUpdate(PartitionUpdateRecord {
        partition: partition("p", 0, &[1]),
        eligible_leader_replicas: eligible.map(nodes),
        last_known_elr: last_known.map(nodes),
        recovery_state: None,
    })
}

fn eligible_leaders(facts: &mut Facts) {
    let cases: [(&str, MetadataRecord); 6] = [
        ("an update of the eligible only", update(Some(&[5]), None)),
        ("an update of the last known only", update(None, Some(&[5]))),
        ("an update of both", update(Some(&[5]), Some(&[]))),
        ("an update of two empty lists", update(Some(&[]), Some(&[]))),
        ("one empty list", elr("p", 0, &[], &[5])),
        ("two empty lists", elr("p", 0, &[], &[])),
    ];
    for (what, record) in cases {
        let image = applied(&[elr("p", 0, &[2], &[3]), record]);
        facts.say(format!("leaders 2 and 3 after {what}"), stored_elr(&image));
    }
}

fn stored_elr(image: &MetadataImage) -> String {
    let numbers = |nodes: &[NodeId]| -> Vec<u64> { nodes.iter().map(|node| node.0).collect() };
    shown(image.to_records().iter().find_map(|record| match record {
        MetadataRecord::V1PartitionElr(r) => Some(format!(
            "{:?} and {:?}",
            numbers(&r.eligible_leader_replicas),
            numbers(&r.last_known_elr)
        )),
        _ => None,
    }))
}

fn recovery(facts: &mut Facts) {
    let cases = [
        ("none", None),
        ("Recovered", Some(LeaderRecoveryState::Recovered)),
        ("Recovering", Some(LeaderRecoveryState::Recovering)),
    ];
    for (what, recovery_state) in cases {
        let update = MetadataRecord::V1PartitionUpdate(PartitionUpdateRecord {
            partition: partition("p", 0, &[1]),
            eligible_leader_replicas: None,
            last_known_elr: None,
            recovery_state,
        });
        let state = applied(&[recovering("p", 0), update]).leader_recovery_state("p", 0);
        facts.say(
            format!("recovery after an update of {what}"),
            format!("{state:?}"),
        );
    }
}

/// An ELR or a recovery needs the partition, not its topic.
fn unknown_partitions(facts: &mut Facts) {
    let image = applied(&[partition_record("p", 0, &[1])]);
    let cases = [
        ("ELR of a partition without a topic", elr("p", 0, &[1], &[])),
        ("ELR of an unknown partition", elr("p", 1, &[1], &[])),
        (
            "recovery of a partition without a topic",
            recovering("p", 0),
        ),
        ("recovery of an unknown partition", recovering("p", 1)),
        ("partition without a topic", partition_record("p", 0, &[1])),
        ("update without a topic", update(None, None)),
    ];
    for (what, record) in cases {
        facts.say(format!("validate {what}"), verdict(&image, &record));
    }
}

fn short(facts: &mut Facts) {
    let with_isr = |number: i32, isr: &[u64]| {
        let mut stored = partition("p", number, &[1, 2]);
        stored.isr = nodes(isr);
        MetadataRecord::V1Partition(stored)
    };
    let image = applied(&[
        with_isr(0, &[1]),
        with_isr(1, &[3, 4]),
        with_isr(2, &[]),
        with_isr(3, &[1, 2, 3]),
    ]);
    let observed = observe(&image, &Witness::default());
    facts.say(
        "short of ISRs of 1, 2, 0 and 3 nodes for 2 replicas",
        observed.short,
    );
}

/// Whether a partition is short while replicas are added to it: its replicas,
/// the adding ones, the ISR.
fn short_on_the_move(facts: &mut Facts) {
    let cases: [(&str, &[u64], &[u64], &[u64]); 9] = [
        (
            "one added, the others in sync",
            &[1, 2, 3, 4],
            &[4],
            &[1, 2, 3],
        ),
        ("one added, another lags", &[1, 2, 3, 4], &[4], &[1, 2]),
        (
            "an adding node that is no replica",
            &[1, 2, 3],
            &[5],
            &[1, 2],
        ),
        ("an adding node listed twice", &[1, 2, 3], &[3, 3], &[1, 2]),
        ("all added, none in sync", &[1, 2], &[2, 1], &[]),
        ("all added, one in sync", &[1, 2], &[1, 2], &[1]),
        ("no replicas, one added", &[], &[1], &[]),
        ("more in sync than replicas", &[1, 2], &[2], &[1, 2, 3]),
        ("in sync but added alone", &[1, 2, 3], &[3], &[3, 4]),
    ];
    for (what, replicas, adding, isr) in cases {
        let mut stored = partition("p", 0, replicas);
        stored.adding_replicas = nodes(adding);
        stored.isr = nodes(isr);
        let image = applied(&[MetadataRecord::V1Partition(stored)]);
        let observed = observe(&image, &Witness::default());
        facts.say(format!("short, {what}"), observed.short == 1);
    }
}

/// One record for each slot below both lengths that is not `MIGRATING`.
fn downgrade(facts: &mut Facts) {
    let mut longer = partition("p", 0, &[1, 2, 3]);
    longer.directories = [5, 0, 7, 8].map(id).to_vec();
    let mut shorter = partition("q", 0, &[1, 2, 3]);
    shorter.directories = vec![id(5)];
    let image = applied(&[
        MetadataRecord::V1Partition(longer),
        MetadataRecord::V1Partition(shorter),
    ]);
    for level in [16, 17] {
        facts.say(
            format!("slots that a downgrade to {level} clears"),
            slots(&image, level),
        );
    }
}

/// The directories after the records of a downgrade, and the replicas that are
/// then listed again.
fn passes(facts: &mut Facts) {
    let cases: [(&str, &[u64], &[u64]); 5] = [
        ("a replica listed twice", &[1, 1], &[0xD, 0xE]),
        ("as many directories", &[1, 2], &[5, 6]),
        ("more directories than replicas", &[1, 2], &[5, 6, 7]),
        ("fewer directories than replicas", &[1, 2, 3], &[5]),
        ("no directories", &[1, 2], &[]),
    ];
    for (what, replicas, directories) in cases {
        let mut stored = partition("p", 0, replicas);
        stored.directories = directories.iter().copied().map(id).collect();
        let mut image = applied(&[MetadataRecord::V1Partition(stored)]);
        for record in image.metadata_version_downgrade_records(16) {
            image.apply(&record);
        }
        let after = numbers(&image.partition("p", 0).expect("it is stored").directories);
        let left = slots(&image, 16);
        facts.say(
            format!("a pass to 16, {what}"),
            format!("{after}, then listed {left}"),
        );
    }
}

fn slots(image: &MetadataImage, level: i16) -> String {
    let mut slots: Vec<(String, u64)> = image
        .metadata_version_downgrade_records(level)
        .iter()
        .filter_map(|record| match record {
            MetadataRecord::V1PartitionDirAssignment(r) => Some((r.topic.clone(), r.replica.0)),
            _ => None,
        })
        .collect();
    slots.sort();
    format!("{slots:?}")
}
