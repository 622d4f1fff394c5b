//! Records and images in a few words, and how facts show values.

use std::collections::BTreeMap;
use std::fmt::Display;

use krabka_metadata::{
    BreakGlassAction, BreakGlassApproval, BreakGlassProposalRecord, BrokerConfigRecord,
    BrokerRegistrationRecord, ClientMetricsConfigRecord, ClientQuotaRecord,
    ControllerRegistrationRecord, DeleteTopicRecord, FeatureLevelRecord, FeaturesEpochRecord,
    GroupConfigRecord, KRaftVersionRecord, LeaderRecoveryState, MetadataImage, MetadataRecord,
    NodeId, PartitionDirAssignmentRecord, PartitionElrRecord, PartitionOffsetAdvanceRecord,
    PartitionRecord, PartitionRecoveryRecord, PatternType, ProducerIdsRecord, QuotaEntity,
    TopicConfigRecord, TopicFreezeRecord, TopicRecord,
};
use uuid::Uuid;

use crate::observe::{Witness, observe, restored};

/// The image that `apply` makes of these records, none of them validated.
pub fn applied(records: &[MetadataRecord]) -> MetadataImage {
    MetadataImage::from_records(Uuid::nil(), records)
}

/// The image after a snapshot and a restore.
pub fn cut(image: &MetadataImage) -> MetadataImage {
    restored(&observe(image, &Witness::default()))
}

pub fn shown<T: Display>(value: Option<T>) -> String {
    value.map_or("none".to_owned(), |value| value.to_string())
}

pub fn id(number: u64) -> Uuid {
    Uuid::from_u64_pair(0, number)
}

/// An id's number in hex.
pub fn number(id: &Uuid) -> String {
    format!("{:x}", id.as_u64_pair().1)
}

pub fn numbers(ids: &[Uuid]) -> String {
    let numbers: Vec<String> = ids.iter().map(number).collect();
    format!("[{}]", numbers.join(", "))
}

pub fn nodes(numbers: &[u64]) -> Vec<NodeId> {
    numbers.iter().copied().map(NodeId).collect()
}

pub fn topic(name: &str, number: u64, partitions: i32, factor: i16) -> MetadataRecord {
    MetadataRecord::V1Topic(TopicRecord {
        name: name.to_owned(),
        topic_id: id(number),
        partitions,
        replication_factor: factor,
    })
}

pub fn delete_topic(name: &str) -> MetadataRecord {
    MetadataRecord::V1DeleteTopic(DeleteTopicRecord {
        name: name.to_owned(),
    })
}

pub fn topic_config(topic: &str, overrides: &[(&str, &str)]) -> MetadataRecord {
    MetadataRecord::V1TopicConfig(TopicConfigRecord {
        topic: topic.to_owned(),
        overrides: pairs(overrides),
    })
}

/// As many configs of a topic as there may be, each as long as it may be.
pub fn most_configs(topic: &str) -> MetadataRecord {
    let value = "v".repeat(255);
    let keys: Vec<String> = (0..64).map(|key| format!("{key:0>255}")).collect();
    let configs: Vec<(&str, &str)> = keys.iter().map(|key| (&key[..], &value[..])).collect();
    topic_config(topic, &configs)
}

pub fn metrics_config(name: &str, configs: &[(&str, &str)]) -> MetadataRecord {
    MetadataRecord::V1ClientMetricsConfig(ClientMetricsConfigRecord {
        name: name.to_owned(),
        configs: pairs(configs),
    })
}

pub fn group_config(group_id: &str, configs: &[(&str, &str)]) -> MetadataRecord {
    MetadataRecord::V1GroupConfig(GroupConfigRecord {
        group_id: group_id.to_owned(),
        configs: pairs(configs),
    })
}

fn pairs(list: &[(&str, &str)]) -> BTreeMap<String, String> {
    let pair = |(key, value): &(&str, &str)| (key.to_string(), value.to_string());
    list.iter().map(pair).collect()
}

/// A partition of these replicas, all in sync, with no directories.
pub fn partition(topic: &str, number: i32, replicas: &[u64]) -> PartitionRecord {
    PartitionRecord {
        topic: topic.to_owned(),
        partition: number,
        replicas: nodes(replicas),
        isr: nodes(replicas),
        ..PartitionRecord::default()
    }
}

pub fn partition_record(topic: &str, number: i32, replicas: &[u64]) -> MetadataRecord {
    MetadataRecord::V1Partition(partition(topic, number, replicas))
}

pub fn dir_assignment(topic: &str, number: i32, replica: u64, directory: u64) -> MetadataRecord {
    MetadataRecord::V1PartitionDirAssignment(PartitionDirAssignmentRecord {
        topic: topic.to_owned(),
        partition: number,
        replica: NodeId(replica),
        directory: id(directory),
    })
}

pub fn offset_advance(topic: &str, number: i32, count: i64) -> MetadataRecord {
    MetadataRecord::V1PartitionOffsetAdvance(PartitionOffsetAdvanceRecord {
        topic: topic.to_owned(),
        partition: number,
        count,
    })
}

pub fn elr(topic: &str, number: i32, eligible: &[u64], last_known: &[u64]) -> MetadataRecord {
    MetadataRecord::V1PartitionElr(PartitionElrRecord {
        topic: topic.to_owned(),
        partition: number,
        eligible_leader_replicas: nodes(eligible),
        last_known_elr: nodes(last_known),
    })
}

fn recovery(topic: &str, partition: i32, state: LeaderRecoveryState) -> MetadataRecord {
    MetadataRecord::V1PartitionRecovery(PartitionRecoveryRecord {
        topic: topic.to_owned(),
        partition,
        state,
    })
}

pub fn recovering(topic: &str, number: i32) -> MetadataRecord {
    recovery(topic, number, LeaderRecoveryState::Recovering)
}

pub fn recovered(topic: &str, number: i32) -> MetadataRecord {
    recovery(topic, number, LeaderRecoveryState::Recovered)
}

pub fn feature_level(name: &str, level: i16) -> MetadataRecord {
    MetadataRecord::V1FeatureLevel(FeatureLevelRecord {
        name: name.to_owned(),
        level,
    })
}

pub fn features_epoch(epoch: i64) -> MetadataRecord {
    MetadataRecord::V1FeaturesEpoch(FeaturesEpochRecord { epoch })
}

pub fn broker(node: u64, epoch: i64) -> BrokerRegistrationRecord {
    BrokerRegistrationRecord {
        node_id: NodeId(node),
        broker_epoch: epoch,
        incarnation_id: id(0),
        host: String::new(),
        port: 9092,
        rack: None,
        endpoints: Vec::new(),
        log_dirs: Vec::new(),
        fenced: false,
        in_controlled_shutdown: false,
        cordoned_log_dirs: None,
        features: BTreeMap::new(),
    }
}

pub fn broker_config(node: u64, name: &str, value: Option<&str>) -> MetadataRecord {
    MetadataRecord::V1BrokerConfig(BrokerConfigRecord {
        node_id: NodeId(node),
        config_name: name.to_owned(),
        config_value: value.map(str::to_owned),
    })
}

/// Type and name of each entity.
pub type Entities<'a> = &'a [(&'a str, Option<&'a str>)];

pub fn quota(entities: Entities, key: &str, value: Option<f64>) -> MetadataRecord {
    let entity = |(entity_type, entity_name): &(&str, Option<&str>)| QuotaEntity {
        entity_type: entity_type.to_string(),
        entity_name: entity_name.map(str::to_owned),
    };
    MetadataRecord::V1ClientQuota(ClientQuotaRecord {
        entity: entities.iter().map(entity).collect(),
        config_key: key.to_owned(),
        config_value: value,
    })
}

pub fn controller(node: u64, incarnation: u64) -> ControllerRegistrationRecord {
    ControllerRegistrationRecord {
        node_id: NodeId(node),
        incarnation_id: id(incarnation),
        zk_migration_ready: false,
        endpoints: Vec::new(),
        features: BTreeMap::new(),
    }
}

pub fn kraft_version(kraft_version: u16) -> MetadataRecord {
    MetadataRecord::V1KRaftVersion(KRaftVersionRecord { kraft_version })
}

pub fn producer_ids(broker: u64, epoch: i64, next: i64) -> MetadataRecord {
    MetadataRecord::V1ProducerIds(ProducerIdsRecord {
        broker_id: NodeId(broker),
        broker_epoch: epoch,
        next_producer_id: next,
    })
}

fn freeze_record(scope: &str, pattern_type: PatternType, frozen: bool) -> MetadataRecord {
    MetadataRecord::V1TopicFreeze(TopicFreezeRecord {
        scope: scope.to_owned(),
        pattern_type,
        frozen,
        reason: String::new(),
        set_by: String::new(),
        set_at_ms: 0,
        proposal_id: id(0),
        key_id: String::new(),
        signature: Vec::new(),
    })
}

pub fn freeze(scope: &str, pattern_type: PatternType) -> MetadataRecord {
    freeze_record(scope, pattern_type, true)
}

pub fn thaw(scope: &str, pattern_type: PatternType) -> MetadataRecord {
    freeze_record(scope, pattern_type, false)
}

/// A proposal that nobody has approved, and that is not settled.
pub fn proposal(proposal_id: Uuid) -> BreakGlassProposalRecord {
    BreakGlassProposalRecord {
        proposal_id,
        action: BreakGlassAction::DeleteTopic,
        target: String::new(),
        proposer: String::new(),
        reason: String::new(),
        created_at_ms: 0,
        expires_at_ms: 0,
        approvals: Vec::new(),
        consumed_at_ms: 0,
        withdrawn: false,
    }
}

pub fn approval(principal: &str) -> BreakGlassApproval {
    BreakGlassApproval {
        principal: principal.to_owned(),
        approved_at_ms: 1,
        key_id: String::new(),
        signature: Vec::new(),
    }
}
