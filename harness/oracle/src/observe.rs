//! What an image holds, as 01 lists it.

use std::collections::{BTreeMap, BTreeSet};

use krabka_metadata::{EntityKey, MetadataImage, MetadataRecord, NodeId, PartitionRecord};
use uuid::Uuid;
use wire::NO_RECORD;

use crate::order;

/// An image's contents. Two are equal where 01 calls the images equal.
#[derive(Debug, Clone)]
pub struct Observed {
    /// The snapshot's records in 01's order. An epoch below 0 and a kraft
    /// version of 0 have no record.
    pub records: Vec<MetadataRecord>,
    /// For each stored topic, whether the id index names it for its id. The
    /// index has no other entries.
    pub named: BTreeMap<String, bool>,
    /// The nodes with an empty config group.
    pub empty_brokers: BTreeSet<NodeId>,
    /// The entity lists with an empty quota group.
    pub empty_quotas: BTreeSet<EntityKey>,
    pub epoch: i64,
    pub kraft: u16,
    /// The log offset of the last record applied. The reference has none, so it
    /// is kept beside its image.
    pub offset: i64,
    /// How many partitions have an ISR smaller than the number of their
    /// replicas that are not being added.
    pub short: usize,
}

impl PartialEq for Observed {
    fn eq(&self, other: &Self) -> bool {
        same_records(&self.records, &other.records)
            && self.named == other.named
            && self.empty_brokers == other.empty_brokers
            && self.empty_quotas == other.empty_quotas
            && self.epoch == other.epoch
            && self.kraft == other.kraft
            && self.offset == other.offset
            && self.short == other.short
    }
}

/// Equality of records by their bits: a quota of NaN equals itself.
pub fn same_record(one: &MetadataRecord, other: &MetadataRecord) -> bool {
    match (one, other) {
        (MetadataRecord::V1ClientQuota(a), MetadataRecord::V1ClientQuota(b)) => {
            a.entity == b.entity
                && a.config_key == b.config_key
                && a.config_value.map(f64::to_bits) == b.config_value.map(f64::to_bits)
        }
        _ => one == other,
    }
}

pub fn same_records(one: &[MetadataRecord], other: &[MetadataRecord]) -> bool {
    one.len() == other.len() && one.iter().zip(other).all(|(a, b)| same_record(a, b))
}

/// Remembers the nodes that BrokerConfig records named. The image does not
/// list its empty broker config groups, so each of these is asked for.
#[derive(Debug, Clone, Default)]
pub struct Witness {
    nodes: BTreeSet<NodeId>,
}

impl Witness {
    pub fn see(&mut self, record: &MetadataRecord) {
        if let MetadataRecord::V1BrokerConfig(config) = record {
            self.nodes.insert(config.node_id);
        }
    }
}

impl Observed {
    /// The same contents at a log offset.
    pub fn at(self, offset: i64) -> Self {
        Self { offset, ..self }
    }
}

/// The contents of `image`, at the log offset of a fresh one. The witness has
/// seen every record that was applied to it.
pub fn observe(image: &MetadataImage, witness: &Witness) -> Observed {
    let mut records = image.to_records();
    order::sort(&mut records);
    Observed {
        records,
        named: named(image),
        empty_brokers: empty_brokers(image, witness),
        empty_quotas: empty_quotas(image),
        epoch: image.finalized_features_epoch(),
        kraft: image.kraft_version(),
        offset: NO_RECORD,
        short: short(image),
    }
}

/// The image that a restore of these contents' snapshot gives.
pub fn restored(observed: &Observed) -> MetadataImage {
    MetadataImage::from_records(Uuid::nil(), &observed.records)
}

fn named(image: &MetadataImage) -> BTreeMap<String, bool> {
    image
        .topics()
        .map(|topic| {
            let name = image.topic_name_by_id(&topic.topic_id);
            (topic.name.clone(), name == Some(topic.name.as_str()))
        })
        .collect()
}

fn empty_brokers(image: &MetadataImage, witness: &Witness) -> BTreeSet<NodeId> {
    let is_empty = |node: &NodeId| image.broker_config(*node).is_some_and(BTreeMap::is_empty);
    witness.nodes.iter().copied().filter(is_empty).collect()
}

fn empty_quotas(image: &MetadataImage) -> BTreeSet<EntityKey> {
    image
        .client_quotas()
        .iter()
        .filter(|(_, configs)| configs.is_empty())
        .map(|(entity, _)| entity.clone())
        .collect()
}

/// How many partitions are short.
pub fn short(image: &MetadataImage) -> usize {
    image
        .all_partitions()
        .filter(|partition| partition.isr.len() < expected(partition))
        .count()
}

/// The slots of the replicas whose node is not among the adding ones.
fn expected(partition: &PartitionRecord) -> usize {
    let adding = &partition.adding_replicas;
    let standing = |node: &&NodeId| !adding.contains(*node);
    partition.replicas.iter().filter(standing).count()
}
