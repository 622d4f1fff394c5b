//! Records to try calls on.

use std::collections::BTreeMap;

use jeghatuf::shapes::*;
use jeghatuf::{Action, Fencing, Fields, PatternType, Protocol, Recovery};

pub fn topic(name: &str, id: u8) -> Topic {
    Topic {
        name: name.into(),
        topic_id: [id; 16],
        partitions: 1,
        replication_factor: 3,
    }
}

pub fn partition(topic: &str, partition: i32, replicas: u64) -> Partition {
    let replicas: Vec<u64> = (1..=replicas).collect();
    Partition {
        topic: topic.into(),
        partition,
        leader: 1,
        isr: replicas.clone(),
        leader_epoch: 2,
        adding_replicas: vec![],
        removing_replicas: vec![3],
        directories: replicas.iter().map(|node| [*node as u8; 16]).collect(),
        replicas,
        partition_epoch: 4,
    }
}

pub fn freeze(scope: &str, pattern_type: PatternType) -> TopicFreeze {
    TopicFreeze {
        scope: scope.into(),
        pattern_type,
        frozen: true,
        reason: "the season is over".into(),
        set_by: "anna".into(),
        set_at_ms: 5,
        proposal_id: [6; 16],
        key_id: "key".into(),
        signature: vec![7; 64],
    }
}

pub fn proposal(approvals: usize) -> BreakGlassProposal {
    let approval = Approval {
        principal: "berta".into(),
        approved_at_ms: 8,
        key_id: "key".into(),
        signature: vec![9; 64],
    };
    BreakGlassProposal {
        proposal_id: [1; 16],
        action: Action::UncleanRecovery,
        target: "plan-0042".into(),
        proposer: "anna".into(),
        reason: "none leads".into(),
        created_at_ms: 10,
        expires_at_ms: 11,
        approvals: vec![approval; approvals],
        consumed_at_ms: 0,
        withdrawn: false,
    }
}

fn pairs(count: usize) -> BTreeMap<String, String> {
    (0..count)
        .map(|number| (format!("name.{number}"), "a value".into()))
        .collect()
}

fn features() -> BTreeMap<String, Levels> {
    let levels = Levels { low: 1, high: 30 };
    [
        ("metadata.version".into(), levels),
        ("group.version".into(), Levels { low: -1, ..levels }),
    ]
    .into()
}

fn endpoint(protocol: Protocol) -> Endpoint {
    Endpoint {
        name: "inside".into(),
        host: "broker-1.example".into(),
        port: 9092,
        protocol,
    }
}

/// A record of each kind, by its number.
pub fn one_of_each() -> Vec<Fields> {
    vec![
        topic("plan-0042", 1).into(),
        partition("plan-0042", 0, 3).into(),
        BrokerRegistration {
            node_id: 1,
            broker_epoch: 2,
            incarnation_id: [3; 16],
            host: "broker-1.example".into(),
            port: 9092,
            rack: Some("a".into()),
            endpoints: vec![endpoint(Protocol::Plaintext), endpoint(Protocol::SaslSsl)],
            log_dirs: vec![[4; 16], [5; 16]],
            fenced: true,
            in_controlled_shutdown: false,
            cordoned_log_dirs: Some(vec![]),
            features: features(),
        }
        .into(),
        DeleteTopic {
            name: "plan-0042".into(),
        }
        .into(),
        TopicConfig {
            topic: "plan-0042".into(),
            overrides: pairs(3),
        }
        .into(),
        BrokerConfig {
            node_id: jeghatuf::DEFAULT_NODE,
            config_name: "leader.replication.throttled.rate".into(),
            config_value: None,
        }
        .into(),
        ClientQuota {
            entity: vec![
                Entity {
                    entity_type: "client-id".into(),
                    entity_name: None,
                },
                Entity {
                    entity_type: "user".into(),
                    entity_name: Some("anna".into()),
                },
            ],
            config_key: "producer_byte_rate".into(),
            config_value: Some(1048576.5),
        }
        .into(),
        ProducerIds {
            broker_id: 1,
            broker_epoch: 2,
            next_producer_id: 1_000,
        }
        .into(),
        UnregisterBroker {
            node_id: 1,
            broker_epoch: -2,
        }
        .into(),
        KRaftVersion { kraft_version: 1 }.into(),
        FeatureLevel {
            name: "metadata.version".into(),
            level: 30,
        }
        .into(),
        ClientMetricsConfig {
            name: "metrics".into(),
            configs: pairs(0),
        }
        .into(),
        FeaturesEpoch { epoch: 7 }.into(),
        PartitionDirAssignment {
            topic: "plan-0042".into(),
            partition: 0,
            replica: 3,
            directory: [6; 16],
        }
        .into(),
        PartitionOffsetAdvance {
            topic: "plan-0042".into(),
            partition: 0,
            count: i64::MIN,
        }
        .into(),
        GroupConfig {
            group_id: "group".into(),
            configs: pairs(64),
        }
        .into(),
        ControllerRegistration {
            node_id: 1,
            incarnation_id: [7; 16],
            zk_migration_ready: true,
            endpoints: vec![endpoint(Protocol::Ssl); 16],
            features: features(),
        }
        .into(),
        freeze("archive-", PatternType::Prefixed).into(),
        proposal(2).into(),
        DeleteBreakGlassProposal {
            proposal_id: [1; 16],
        }
        .into(),
        PartitionElr {
            topic: "plan-0042".into(),
            partition: 0,
            eligible_leader_replicas: vec![2],
            last_known_elr: vec![],
        }
        .into(),
        PartitionRecovery {
            topic: "plan-0042".into(),
            partition: 0,
            state: Recovery::Recovering,
        }
        .into(),
        PartitionUpdate {
            partition: partition("plan-0042", 1, 2),
            eligible_leader_replicas: Some(vec![1]),
            last_known_elr: Some(vec![2]),
            recovery_state: Some(Recovery::Recovered),
        }
        .into(),
        BrokerRegistrationChange {
            node_id: 1,
            broker_epoch: 2,
            fenced: Fencing::Unfence,
            in_controlled_shutdown: true,
            log_dirs: vec![],
            cordoned_log_dirs: None,
        }
        .into(),
        UnregisterController { node_id: 1 }.into(),
        LogOffset { offset: 14 }.into(),
    ]
}
