//! Full images to time: brokers, a throttle and a freeze, and plans, each a
//! topic of two partitions.

use krabka_metadata::{MetadataImage, MetadataRecord, NodeId, PartitionRecord, PatternType};
use oracle::facts::build::{broker, broker_config, freeze, id, partition, topic};
use oracle::image::{image, weight};
use oracle::observe::{Witness, observe};
use uuid::Uuid;

use super::subject::Subject;

const BROKERS: u64 = 3;
const THROTTLE: &str = "leader.replication.throttled.rate";
/// A prefix of every plan's name.
pub const FROZEN: &str = "plan-";

/// An image with as many plans as its capacity takes.
pub struct Full {
    pub bytes: Vec<u8>,
    pub image: MetadataImage,
    /// Its log offset.
    pub offset: i64,
    /// The plan in the middle.
    pub name: String,
    pub id: Uuid,
}

impl Full {
    /// With one freeze, of all plans.
    pub fn of(capacity: usize) -> Self {
        Self::frozen(capacity, &[freeze(FROZEN, PatternType::Prefixed)])
    }

    /// With these freezes.
    pub fn frozen(capacity: usize, freezes: &[MetadataRecord]) -> Self {
        let records = |plans| records(freezes, plans);
        let plans = (1..).find(|plans| !fits(&records(plans + 1), capacity));
        let plans = plans.expect("a capacity has an end");
        let subject = Subject::of(&records(plans));
        let bytes = image(&subject.observed, capacity).expect("contents that fit");
        Self {
            bytes,
            image: subject.image,
            offset: subject.observed.offset,
            name: plan_name(plans / 2),
            id: id(plans / 2),
        }
    }
}

fn fits(records: &[MetadataRecord], capacity: usize) -> bool {
    let image = MetadataImage::from_records(Uuid::nil(), records);
    weight(&observe(&image, &Witness::default())) <= capacity
}

pub fn plan_name(plan: u64) -> String {
    format!("plan-{plan:04}")
}

fn records(freezes: &[MetadataRecord], plans: u64) -> Vec<MetadataRecord> {
    let brokers = (1..=BROKERS).map(|node| MetadataRecord::V1BrokerRegistration(broker(node, 1)));
    let throttle = broker_config(2, THROTTLE, Some("1048576"));
    let rules = [throttle].into_iter().chain(freezes.iter().cloned());
    let plans = (0..plans).flat_map(|plan| {
        let name = plan_name(plan);
        [
            topic(&name, plan, 0, 3),
            MetadataRecord::V1Partition(sheet(&name, 0)),
            MetadataRecord::V1Partition(sheet(&name, 1)),
        ]
    });
    brokers.chain(rules).chain(plans).collect()
}

/// A partition with three replicas and their directories; of every second one
/// the ISR is short.
fn sheet(name: &str, number: i32) -> PartitionRecord {
    let in_sync = 3 - u64::try_from(number).expect("0 or 1");
    PartitionRecord {
        leader: NodeId(1),
        isr: (1..=in_sync).map(NodeId).collect(),
        directories: (1..=BROKERS).map(id).collect(),
        ..partition(name, number, &[1, 2, 3])
    }
}
