//! What 01 asks of the entries, one function for each clause.

use std::collections::{BTreeMap, BTreeSet};

use krabka_metadata::{EntityKey, LeaderRecoveryState, MetadataRecord, NodeId, QuotaEntity};
use uuid::Uuid;

use super::entries::Entry;
use crate::order::{entity_key, place};

/// A kind that is stored, and such as Apply stores.
pub fn is_stored(record: &MetadataRecord) -> bool {
    use MetadataRecord::*;
    match record {
        V1Topic(_)
        | V1Partition(_)
        | V1BrokerRegistration(_)
        | V1ControllerRegistration(_)
        | V1PartitionOffsetAdvance(_)
        | V1BreakGlassProposal(_) => true,
        V1TopicConfig(r) => !r.overrides.is_empty(),
        V1ClientMetricsConfig(r) => !r.configs.is_empty(),
        V1GroupConfig(r) => !r.configs.is_empty(),
        V1BrokerConfig(r) => r.config_value.is_some(),
        V1ClientQuota(r) => r.config_value.is_some() && entities_in_order(&r.entity),
        V1ProducerIds(r) => r.next_producer_id > 0,
        V1FeatureLevel(r) => r.level != 0,
        V1PartitionElr(r) => {
            !(r.eligible_leader_replicas.is_empty() && r.last_known_elr.is_empty())
        }
        V1PartitionRecovery(r) => r.state != LeaderRecoveryState::Recovered,
        V1TopicFreeze(r) => r.frozen,
        _ => false,
    }
}

/// A broker config or quota group without members: an empty name, no value.
pub fn is_empty_group(record: &MetadataRecord) -> bool {
    match record {
        MetadataRecord::V1BrokerConfig(r) => r.config_name.is_empty() && r.config_value.is_none(),
        MetadataRecord::V1ClientQuota(r) => {
            r.config_key.is_empty() && r.config_value.is_none() && entities_in_order(&r.entity)
        }
        _ => false,
    }
}

/// By type, then by name, an absent name first.
fn entities_in_order(entity: &[QuotaEntity]) -> bool {
    entity_key(entity).is_sorted()
}

/// Strictly ascending by key, so without repeats.
pub fn ascend(entries: &[Entry]) -> bool {
    entries.is_sorted_by(|one, next| place(&one.record) < place(&next.record))
}

/// What the members of a group share.
#[derive(PartialEq, Eq, PartialOrd, Ord)]
enum Group {
    Broker(NodeId),
    Quota(EntityKey),
}

fn group(entry: &Entry) -> Option<Group> {
    match &entry.record {
        MetadataRecord::V1BrokerConfig(r) => Some(Group::Broker(r.node_id)),
        MetadataRecord::V1ClientQuota(r) => Some(Group::Quota(entity_key(&r.entity))),
        _ => None,
    }
}

pub fn no_group_has_members(real: &[Entry], groups: &[Entry]) -> bool {
    let with_members: BTreeSet<Group> = real.iter().filter_map(group).collect();
    let empty: BTreeSet<Group> = groups.iter().filter_map(group).collect();
    with_members.is_disjoint(&empty)
}

/// Each topic's count is from 0 to its stored partitions' number.
pub fn counts_fit(real: &[Entry]) -> bool {
    let mut numbers: BTreeMap<&str, usize> = BTreeMap::new();
    for entry in real {
        if let MetadataRecord::V1Partition(partition) = &entry.record {
            *numbers.entry(&partition.topic).or_default() += 1;
        }
    }
    real.iter().all(|entry| match &entry.record {
        MetadataRecord::V1Topic(topic) => {
            let number = numbers.get(topic.name.as_str()).copied().unwrap_or(0);
            usize::try_from(topic.partitions).is_ok_and(|count| count <= number)
        }
        _ => true,
    })
}

/// The id index has one name for an id, so no two named topics share one.
pub fn ids_name_one_topic(real: &[Entry]) -> bool {
    let mut ids: BTreeSet<Uuid> = BTreeSet::new();
    real.iter().all(|entry| match &entry.record {
        MetadataRecord::V1Topic(topic) if entry.named => ids.insert(topic.topic_id),
        _ => true,
    })
}

/// What an entry adds to the weight.
pub fn weight(entry: &Entry) -> usize {
    match entry.record {
        MetadataRecord::V1Topic(_) => entry.size + 8,
        MetadataRecord::V1ProducerIds(_) => 0,
        _ => entry.size,
    }
}
