//! The image's bytes, built from what the reference holds.

use krabka_metadata::{BrokerConfigRecord, ClientQuotaRecord, MetadataRecord, NodeId, QuotaEntity};
use wire::encoded;

use crate::layout::Layout;
use crate::observe::Observed;

/// What a fresh image weighs, and the least capacity.
pub const FIXED_ROOM: usize = 144;
pub const MOST_CAPACITY: usize = 65_536;

/// What the contents weigh.
pub fn weight(observed: &Observed) -> usize {
    let entries = observed.records.iter().map(|record| match record {
        MetadataRecord::V1ProducerIds(_)
        | MetadataRecord::V1FeaturesEpoch(_)
        | MetadataRecord::V1KRaftVersion(_) => 0,
        MetadataRecord::V1Topic(_) => encoded(record).len() + 8,
        _ => encoded(record).len(),
    });
    let groups = groups(observed);
    FIXED_ROOM + entries.sum::<usize>() + groups.iter().map(Vec::len).sum::<usize>()
}

/// The image of these contents at a capacity, where they fit it.
pub fn image(observed: &Observed, capacity: usize) -> Option<Vec<u8>> {
    let room = FIXED_ROOM..=MOST_CAPACITY;
    if !room.contains(&capacity) || weight(observed) > capacity {
        return None;
    }
    Some(layout(observed).bytes(capacity))
}

/// The header's numbers and the entries: the stored ones, then the empty groups.
pub fn layout(observed: &Observed) -> Layout {
    let stored = observed.records.iter().filter_map(|record| match record {
        MetadataRecord::V1FeaturesEpoch(_) | MetadataRecord::V1KRaftVersion(_) => None,
        MetadataRecord::V1Topic(topic) => Some(topic_entry(record, observed.named[&topic.name])),
        _ => Some(encoded(record)),
    });
    Layout {
        epoch: observed.epoch,
        kraft: observed.kraft,
        offset: observed.offset,
        entries: stored.chain(groups(observed)).collect(),
    }
}

/// A topic's entry: its record with tag 5, four zeros and the flag.
pub fn topic_entry(record: &MetadataRecord, named: bool) -> Vec<u8> {
    let mut entry = encoded(record);
    entry.extend([5, 0, 5, 0, 0, 0, 0, u8::from(named)]);
    let body = u16::try_from(entry.len() - 3).expect("a topic is short");
    entry[1..3].copy_from_slice(&body.to_be_bytes());
    entry
}

/// Each empty group's record: an empty name and no value.
fn groups(observed: &Observed) -> Vec<Vec<u8>> {
    let configs = observed
        .empty_brokers
        .iter()
        .map(|node| empty_config(*node));
    let quotas = observed.empty_quotas.iter().map(|entity| {
        let entity = entity.iter().map(|(entity_type, entity_name)| QuotaEntity {
            entity_type: entity_type.clone(),
            entity_name: entity_name.clone(),
        });
        MetadataRecord::V1ClientQuota(ClientQuotaRecord {
            entity: entity.collect(),
            config_key: String::new(),
            config_value: None,
        })
    });
    configs
        .chain(quotas)
        .map(|record| encoded(&record))
        .collect()
}

fn empty_config(node_id: NodeId) -> MetadataRecord {
    MetadataRecord::V1BrokerConfig(BrokerConfigRecord {
        node_id,
        config_name: String::new(),
        config_value: None,
    })
}
