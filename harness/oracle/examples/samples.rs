//! Writes the samples of the program `inspect`, files of record bytes, into a folder. From the repository's root:
//!
//!     cargo run --manifest-path harness/Cargo.toml --example samples -- crates/tool_inspect/data

use std::path::Path;
use std::{env, fs};

use krabka_metadata::{LeaderEpoch, MetadataRecord, NodeId, PartitionRecord, PatternType};
use oracle::facts::build::{
    broker, broker_config, delete_topic, features_epoch, freeze, partition, quota, topic,
};
use oracle::snapshot::starting;
use wire::encoded_all;

const BROKERS: [u64; 3] = [1, 2, 3];
const THROTTLE: &str = "leader.replication.throttled.rate";

fn main() {
    let folder = env::args().nth(1).expect("the folder to write to");
    let write = |name: &str, bytes: &[u8]| {
        fs::write(Path::new(&folder).join(name), bytes).expect("the folder is writable");
    };
    let plan = [registered(), first_plans(), rules(), second_plan()].concat();
    write("plan.records", &encoded_all(&plan));
    write("damaged.records", &damaged(&plan));
    write("unmet.records", &encoded_all(&unmet()));
    write("empty.records", &[]);
    write("unlawful.records", &encoded_all(&unlawful()));
    write("snapshot.records", &starting(41, &encoded_all(&leaders())));
    write(
        "quotas.records",
        &encoded_all(&[leaders(), quotas()].concat()),
    );
}

/// The sample with a wrong tag in its sixth record, and its last record cut.
fn damaged(records: &[MetadataRecord]) -> Vec<u8> {
    let mut bytes = encoded_all(records);
    bytes[encoded_all(&records[..5]).len() + 3] = 9;
    bytes.truncate(bytes.len() - 5);
    bytes
}

/// A history that does not meet three of the theorem's premises: a partition
/// has another number of replicas than its topic's replication factor, two
/// topics share an id, and an epoch is negative.
fn unmet() -> Vec<MetadataRecord> {
    vec![
        topic("plan-b", 7, 2, 3),
        MetadataRecord::V1Partition(partition("plan-b", 1, &BROKERS)),
        MetadataRecord::V1Partition(partition("plan-b", 0, &BROKERS[..2])),
        topic("plan-b", 7, 9, 2),
        topic("plan-a", 7, 1, 3),
        features_epoch(-5),
    ]
}

/// A plan whose name Kafka does not allow, with its room list, and the same
/// under a lawful name; then two dots, and the longest name and one longer.
fn unlawful() -> Vec<MetadataRecord> {
    vec![
        topic("Smith/2", 7, 1, 3),
        sheet("Smith/2", 0, 3),
        topic("Smith-2", 7, 1, 3),
        sheet("Smith-2", 0, 3),
        topic("..", 8, 1, 3),
        topic(&"n".repeat(249), 9, 1, 3),
        topic(&"n".repeat(250), 10, 1, 3),
    ]
}

/// A topic with leaders at epochs of both signs: also the records of a snapshot,
/// whose log offset is no record of the log.
fn leaders() -> Vec<MetadataRecord> {
    let led = |number, leader, epoch| {
        MetadataRecord::V1Partition(PartitionRecord {
            leader: NodeId(leader),
            leader_epoch: LeaderEpoch(epoch),
            ..partition("plan-0042", number, &BROKERS)
        })
    };
    vec![
        topic("plan-0042", 42, 2, 3),
        led(0, 3, i32::MAX),
        led(1, u64::MAX, i32::MIN),
    ]
}

/// Quotas of one entity and of two, with and without a name: whole values to
/// both ends of what the tool shows as such, values past them, with a fraction,
/// of zero below, and of no number; and one that is removed again.
fn quotas() -> Vec<MetadataRecord> {
    const WHOLE: f64 = 9_007_199_254_740_992.0;
    let anna = [("client-id", None), ("user", Some("anna"))];
    const RATE: &str = "connection_creation_rate";
    let none = f64::from_bits(0xfff0_0000_0000_0001);
    vec![
        quota(&anna, "producer_byte_rate", Some(1_048_576.0)),
        quota(&anna, "consumer_byte_rate", Some(0.0)),
        quota(&[("user", None)], "producer_byte_rate", Some(WHOLE)),
        quota(&[("user", None)], "consumer_byte_rate", Some(-WHOLE)),
        quota(&[("user", None)], "request_percentage", Some(WHOLE + 2.0)),
        quota(&[("user", Some("a\nb"))], "request_percentage", Some(12.5)),
        quota(&[("user", Some(""))], "request_percentage", Some(-0.0)),
        quota(&[("ip", Some("10.0.0.7"))], RATE, Some(none)),
        quota(&[("ip", Some("10.0.0.8"))], RATE, Some(f64::INFINITY)),
        quota(&[("ip", Some("10.0.0.9"))], RATE, Some(5.0)),
        quota(&[("ip", Some("10.0.0.9"))], RATE, None),
        quota(&[], "producer_byte_rate", Some(1.0)),
    ]
}

fn registered() -> Vec<MetadataRecord> {
    let records = BROKERS.map(|node| MetadataRecord::V1BrokerRegistration(broker(node, 1)));
    records.to_vec()
}

/// A partition of three replicas, of which so many are in sync.
fn sheet(plan: &str, number: i32, in_sync: usize) -> MetadataRecord {
    MetadataRecord::V1Partition(PartitionRecord {
        leader: NodeId(1),
        isr: BROKERS[..in_sync].iter().copied().map(NodeId).collect(),
        ..partition(plan, number, &BROKERS)
    })
}

/// Two plans with both sheets, and a sheet of a plan that there is not.
fn first_plans() -> Vec<MetadataRecord> {
    vec![
        topic("plan-0042", 42, 2, 3),
        sheet("plan-0042", 0, 3),
        sheet("plan-0042", 1, 3),
        topic("plan-0043", 43, 2, 3),
        sheet("plan-0043", 0, 3),
        sheet("plan-0043", 1, 2),
        sheet("plan-0044", 0, 3),
    ]
}

fn rules() -> Vec<MetadataRecord> {
    vec![
        broker_config(2, THROTTLE, Some("1048576")),
        freeze("archive-", PatternType::Prefixed),
    ]
}

/// The first plan again, with the room list alone.
fn second_plan() -> Vec<MetadataRecord> {
    vec![
        delete_topic("plan-0042"),
        topic("plan-0042", 142, 1, 3),
        sheet("plan-0042", 0, 3),
    ]
}
