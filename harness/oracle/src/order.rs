//! 01's snapshot order: the groups of `to_records`, each ascending by key.
//! The reference's own order within a group is a hash's.

use krabka_metadata::{
    ClientQuotaRecord, EntityKey, MetadataRecord, NodeId, PatternType, QuotaEntity,
};
use uuid::Uuid;

use crate::kind::kind;

/// The kinds of a snapshot's records, in the order of their groups.
pub const GROUPS: [u8; 18] = [
    3, 17, 6, 1, 2, 15, 21, 22, 5, 7, 8, 12, 16, 18, 19, 11, 13, 10,
];

/// Sorts the records of a snapshot into 01's order.
pub fn sort(records: &mut [MetadataRecord]) {
    records.sort_by_cached_key(place);
}

/// Where a record stands in 01's order: its group, then its key.
#[derive(PartialEq, Eq, PartialOrd, Ord)]
pub struct Place(usize, Key);

/// The place of a record of a kind that a snapshot has.
pub fn place(record: &MetadataRecord) -> Place {
    Place(rank(record), key(record))
}

/// The entities of a quota record, as the image's key has them.
pub fn entity_key(entity: &[QuotaEntity]) -> EntityKey {
    entity
        .iter()
        .map(|e| (e.entity_type.clone(), e.entity_name.clone()))
        .collect()
}

fn rank(record: &MetadataRecord) -> usize {
    let kind = kind(record);
    GROUPS
        .iter()
        .position(|group| Some(*group) == kind)
        .expect("a kind that a snapshot has")
}

/// A record's key within its group. The derived order is 01's: strings and
/// ids go by bytes, numbers by value, entities element by element, type and
/// then name, an absent name first, a list before its longer continuations.
#[derive(PartialEq, Eq, PartialOrd, Ord)]
enum Key {
    Single,
    Node(NodeId),
    NodeConfig(NodeId, String),
    Name(String),
    Partition(String, i32),
    Quota(EntityKey, String),
    Freeze { prefixed: bool, scope: String },
    Id(Uuid),
}

fn key(record: &MetadataRecord) -> Key {
    match record {
        MetadataRecord::V1BrokerRegistration(r) => Key::Node(r.node_id),
        MetadataRecord::V1ControllerRegistration(r) => Key::Node(r.node_id),
        MetadataRecord::V1BrokerConfig(r) => Key::NodeConfig(r.node_id, r.config_name.clone()),
        MetadataRecord::V1Topic(r) => Key::Name(r.name.clone()),
        MetadataRecord::V1Partition(r) => Key::Partition(r.topic.clone(), r.partition),
        MetadataRecord::V1PartitionOffsetAdvance(r) => Key::Partition(r.topic.clone(), r.partition),
        MetadataRecord::V1PartitionElr(r) => Key::Partition(r.topic.clone(), r.partition),
        MetadataRecord::V1PartitionRecovery(r) => Key::Partition(r.topic.clone(), r.partition),
        MetadataRecord::V1TopicConfig(r) => Key::Name(r.topic.clone()),
        MetadataRecord::V1ClientQuota(r) => quota_key(r),
        MetadataRecord::V1ClientMetricsConfig(r) => Key::Name(r.name.clone()),
        MetadataRecord::V1GroupConfig(r) => Key::Name(r.group_id.clone()),
        MetadataRecord::V1TopicFreeze(r) => Key::Freeze {
            prefixed: r.pattern_type == PatternType::Prefixed,
            scope: r.scope.clone(),
        },
        MetadataRecord::V1BreakGlassProposal(r) => Key::Id(r.proposal_id),
        MetadataRecord::V1FeatureLevel(r) => Key::Name(r.name.clone()),
        _ => Key::Single,
    }
}

fn quota_key(record: &ClientQuotaRecord) -> Key {
    Key::Quota(entity_key(&record.entity), record.config_key.clone())
}
