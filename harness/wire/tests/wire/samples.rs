//! One record of each kind with every option and list filled, beside its bytes
//! as they are written by hand, and the same record with them empty.

use std::collections::BTreeMap;

use krabka_metadata::MetadataRecord::*;
use krabka_metadata::*;
use uuid::Uuid;

use crate::runs::{self, field, ids, nodes};

/// The filled records of the kinds 1 to 25, each with its bytes.
pub fn filled() -> Vec<(MetadataRecord, Vec<u8>)> {
    let samples = [
        topic,
        partition,
        broker_registration,
        delete_topic,
        topic_config,
        broker_config,
        client_quota,
        producer_ids,
        unregister_broker,
        kraft_version,
        feature_level,
        client_metrics_config,
        features_epoch,
        partition_dir_assignment,
        partition_offset_advance,
        group_config,
        controller_registration,
        topic_freeze,
        break_glass_proposal,
        delete_break_glass_proposal,
        partition_elr,
        partition_recovery,
        partition_update,
        broker_registration_change,
        unregister_controller,
    ];
    let with_bytes = |(kind, sample): (u8, fn() -> Sample)| {
        let (record, fields) = sample();
        (record, runs::record(kind, &fields))
    };
    (1..).zip(samples).map(with_bytes).collect()
}

/// The same records, options absent and lists, maps and signatures empty.
pub fn emptied() -> Vec<MetadataRecord> {
    let records = filled().into_iter().map(|(record, _)| record);
    let emptied = records.map(empty_broker).map(empty_configs);
    emptied.map(empty_rest).collect()
}

fn empty_broker(record: MetadataRecord) -> MetadataRecord {
    match record {
        V1BrokerRegistration(record) => V1BrokerRegistration(BrokerRegistrationRecord {
            host: String::new(),
            rack: None,
            endpoints: Vec::new(),
            log_dirs: Vec::new(),
            cordoned_log_dirs: None,
            features: BTreeMap::new(),
            ..record
        }),
        V1BrokerConfig(record) => V1BrokerConfig(BrokerConfigRecord {
            config_value: None,
            ..record
        }),
        V1ControllerRegistration(record) => {
            V1ControllerRegistration(ControllerRegistrationRecord {
                endpoints: Vec::new(),
                features: BTreeMap::new(),
                ..record
            })
        }
        V1BrokerRegistrationChange(record) => V1BrokerRegistrationChange(
            BrokerRegistrationChangeRecord::no_change(record.node_id, record.broker_epoch),
        ),
        other => other,
    }
}

fn empty_configs(record: MetadataRecord) -> MetadataRecord {
    match record {
        V1TopicConfig(mut record) => {
            record.overrides.clear();
            V1TopicConfig(record)
        }
        V1ClientQuota(_) => V1ClientQuota(ClientQuotaRecord {
            entity: Vec::new(),
            config_key: String::new(),
            config_value: None,
        }),
        V1ClientMetricsConfig(mut record) => {
            record.configs.clear();
            V1ClientMetricsConfig(record)
        }
        V1GroupConfig(mut record) => {
            record.configs.clear();
            V1GroupConfig(record)
        }
        other => other,
    }
}

fn empty_rest(record: MetadataRecord) -> MetadataRecord {
    match record {
        V1Partition(_) => V1Partition(PartitionRecord::default()),
        V1TopicFreeze(mut record) => {
            record.signature.clear();
            V1TopicFreeze(record)
        }
        V1BreakGlassProposal(mut record) => {
            record.approvals.clear();
            V1BreakGlassProposal(record)
        }
        V1PartitionElr(mut record) => {
            record.eligible_leader_replicas.clear();
            record.last_known_elr.clear();
            V1PartitionElr(record)
        }
        V1PartitionUpdate(_) => V1PartitionUpdate(PartitionUpdateRecord {
            partition: PartitionRecord::default(),
            eligible_leader_replicas: None,
            last_known_elr: None,
            recovery_state: None,
        }),
        other => other,
    }
}

/// A record and its fields' bytes.
type Sample = (MetadataRecord, Vec<Vec<u8>>);

fn id(last: u8) -> Uuid {
    Uuid::from_bytes(runs::id(last))
}

fn topic() -> Sample {
    let record = TopicRecord {
        name: "t".into(),
        topic_id: id(7),
        partitions: 3,
        replication_factor: -2,
    };
    let fields = vec![
        field(1, "t"),
        field(2, runs::id(7)),
        field(3, [0, 0, 0, 3]),
        field(4, [0xFF, 0xFE]),
    ];
    (V1Topic(record), fields)
}

fn partition() -> Sample {
    (V1Partition(partition_value()), partition_fields())
}

pub fn partition_value() -> PartitionRecord {
    PartitionRecord {
        topic: "tp".into(),
        partition: 2,
        leader: NodeId(1),
        replicas: vec![NodeId(1), NodeId(2)],
        isr: vec![NodeId(1)],
        leader_epoch: LeaderEpoch(5),
        adding_replicas: vec![NodeId(2)],
        removing_replicas: vec![NodeId(3), NodeId(u64::MAX)],
        directories: vec![id(0xD1), id(0xD2)],
        partition_epoch: -6,
    }
}

fn partition_fields() -> Vec<Vec<u8>> {
    vec![
        field(1, "tp"),
        field(2, [0, 0, 0, 2]),
        field(3, nodes(&[1])),
        field(4, nodes(&[1, 2])),
        field(5, nodes(&[1])),
        field(6, [0, 0, 0, 5]),
        field(7, nodes(&[2])),
        field(8, nodes(&[3, u64::MAX])),
        field(9, ids(&[0xD1, 0xD2])),
        field(10, [0xFF, 0xFF, 0xFF, 0xFA]),
    ]
}

fn broker_registration() -> Sample {
    let record = BrokerRegistrationRecord {
        node_id: NodeId(1),
        broker_epoch: 10,
        incarnation_id: id(0x1C),
        host: "h".into(),
        port: 9092,
        rack: Some("r".into()),
        endpoints: endpoint_values(),
        log_dirs: vec![id(0xD1), id(0xD2)],
        fenced: true,
        in_controlled_shutdown: false,
        cordoned_log_dirs: Some(vec![id(0xD3)]),
        features: feature_values(),
    };
    let endpoints = endpoint_fields().map(|value| field(7, value));
    let features = feature_fields().map(|value| field(12, value));
    let fields = vec![
        field(1, [0, 0, 0, 0, 0, 0, 0, 1]),
        field(2, [0, 0, 0, 0, 0, 0, 0, 10]),
        field(3, runs::id(0x1C)),
        field(4, "h"),
        field(5, [0x23, 0x84]),
        field(6, "r"),
        endpoints.concat(),
        field(8, ids(&[0xD1, 0xD2])),
        field(9, [1]),
        field(10, [0]),
        field(11, ids(&[0xD3])),
        features.concat(),
    ];
    (V1BrokerRegistration(record), fields)
}

pub fn endpoint_values() -> Vec<BrokerEndpoint> {
    let plain = BrokerEndpoint {
        name: "PLAINTEXT".into(),
        host: "h".into(),
        port: 1,
        protocol: ListenerProtocol::Plaintext,
    };
    let sasl = BrokerEndpoint {
        name: "SASL_SSL".into(),
        host: "i".into(),
        port: 65535,
        protocol: ListenerProtocol::SaslSsl,
    };
    vec![plain, sasl]
}

fn endpoint_fields() -> [Vec<u8>; 2] {
    let plain = [
        field(1, "PLAINTEXT"),
        field(2, "h"),
        field(3, [0, 1]),
        field(4, [0]),
    ];
    let sasl = [
        field(1, "SASL_SSL"),
        field(2, "i"),
        field(3, [0xFF, 0xFF]),
        field(4, [3]),
    ];
    [plain.concat(), sasl.concat()]
}

fn feature_values() -> BTreeMap<String, (i16, i16)> {
    BTreeMap::from([("b".into(), (-1, 30)), ("a".into(), (0, 1))])
}

fn feature_fields() -> [Vec<u8>; 2] {
    let a = [field(1, "a"), field(2, [0, 0]), field(3, [0, 1])];
    let b = [field(1, "b"), field(2, [0xFF, 0xFF]), field(3, [0, 30])];
    [a.concat(), b.concat()]
}

fn delete_topic() -> Sample {
    let record = DeleteTopicRecord { name: "t".into() };
    (V1DeleteTopic(record), vec![field(1, "t")])
}

fn topic_config() -> Sample {
    let record = TopicConfigRecord {
        topic: "t".into(),
        overrides: config_values(),
    };
    (V1TopicConfig(record), config_fields("t"))
}

fn config_values() -> BTreeMap<String, String> {
    let pairs = [("k", "v"), ("", "empty key"), ("ka", "")];
    BTreeMap::from(pairs.map(|(key, value)| (key.into(), value.into())))
}

fn config_fields(name: &str) -> Vec<Vec<u8>> {
    let pair = |key: &str, value: &str| field(2, [field(1, key), field(2, value)].concat());
    vec![
        field(1, name),
        pair("", "empty key"),
        pair("k", "v"),
        pair("ka", ""),
    ]
}

fn broker_config() -> Sample {
    let record = BrokerConfigRecord {
        node_id: NodeId(u64::MAX),
        config_name: "k".into(),
        config_value: Some("v".into()),
    };
    let fields = vec![field(1, [0xFF; 8]), field(2, "k"), field(3, "v")];
    (V1BrokerConfig(record), fields)
}

fn client_quota() -> Sample {
    let entity = |entity_type: &str, entity_name: Option<&str>| QuotaEntity {
        entity_type: entity_type.into(),
        entity_name: entity_name.map(String::from),
    };
    let record = ClientQuotaRecord {
        entity: vec![entity("user", Some("alice")), entity("client-id", None)],
        config_key: "producer_byte_rate".into(),
        config_value: Some(1024.5),
    };
    let fields = vec![
        field(1, [field(1, "user"), field(2, "alice")].concat()),
        field(1, field(1, "client-id")),
        field(2, "producer_byte_rate"),
        field(3, [0x40, 0x90, 0x02, 0, 0, 0, 0, 0]),
    ];
    (V1ClientQuota(record), fields)
}

fn producer_ids() -> Sample {
    let record = ProducerIdsRecord {
        broker_id: NodeId(1),
        broker_epoch: -10,
        next_producer_id: 1000,
    };
    let fields = vec![
        field(1, [0, 0, 0, 0, 0, 0, 0, 1]),
        field(2, [0xFF, 0xFF, 0xFF, 0xFF, 0xFF, 0xFF, 0xFF, 0xF6]),
        field(3, [0, 0, 0, 0, 0, 0, 0x03, 0xE8]),
    ];
    (V1ProducerIds(record), fields)
}

fn unregister_broker() -> Sample {
    let record = UnregisterBrokerRecord {
        node_id: NodeId(1),
        broker_epoch: 10,
    };
    let fields = vec![
        field(1, [0, 0, 0, 0, 0, 0, 0, 1]),
        field(2, [0, 0, 0, 0, 0, 0, 0, 10]),
    ];
    (V1UnregisterBroker(record), fields)
}

fn kraft_version() -> Sample {
    let kraft_version = 258;
    let record = KRaftVersionRecord { kraft_version };
    (V1KRaftVersion(record), vec![field(1, [1, 2])])
}

fn feature_level() -> Sample {
    let record = FeatureLevelRecord {
        name: "a".into(),
        level: 1,
    };
    (
        V1FeatureLevel(record),
        vec![field(1, "a"), field(2, [0, 1])],
    )
}

fn client_metrics_config() -> Sample {
    let record = ClientMetricsConfigRecord {
        name: "m".into(),
        configs: config_values(),
    };
    (V1ClientMetricsConfig(record), config_fields("m"))
}

fn features_epoch() -> Sample {
    let record = FeaturesEpochRecord { epoch: -1 };
    (V1FeaturesEpoch(record), vec![field(1, [0xFF; 8])])
}

fn partition_dir_assignment() -> Sample {
    let record = PartitionDirAssignmentRecord {
        topic: "t".into(),
        partition: 2,
        replica: NodeId(1),
        directory: id(0xD1),
    };
    let fields = vec![
        field(1, "t"),
        field(2, [0, 0, 0, 2]),
        field(3, [0, 0, 0, 0, 0, 0, 0, 1]),
        field(4, runs::id(0xD1)),
    ];
    (V1PartitionDirAssignment(record), fields)
}

fn partition_offset_advance() -> Sample {
    let record = PartitionOffsetAdvanceRecord {
        topic: "t".into(),
        partition: 2,
        count: 9,
    };
    let fields = vec![
        field(1, "t"),
        field(2, [0, 0, 0, 2]),
        field(3, [0, 0, 0, 0, 0, 0, 0, 9]),
    ];
    (V1PartitionOffsetAdvance(record), fields)
}

fn group_config() -> Sample {
    let record = GroupConfigRecord {
        group_id: "g".into(),
        configs: config_values(),
    };
    (V1GroupConfig(record), config_fields("g"))
}

fn controller_registration() -> Sample {
    let record = ControllerRegistrationRecord {
        node_id: NodeId(3000),
        incarnation_id: id(0x1C),
        zk_migration_ready: true,
        endpoints: endpoint_values(),
        features: feature_values(),
    };
    let fields = vec![
        field(1, [0, 0, 0, 0, 0, 0, 0x0B, 0xB8]),
        field(2, runs::id(0x1C)),
        field(3, [1]),
        endpoint_fields().map(|value| field(4, value)).concat(),
        feature_fields().map(|value| field(5, value)).concat(),
    ];
    (V1ControllerRegistration(record), fields)
}

fn topic_freeze() -> Sample {
    let record = TopicFreezeRecord {
        scope: "tenant-a.".into(),
        pattern_type: PatternType::Prefixed,
        frozen: true,
        reason: "dr".into(),
        set_by: "User:alice".into(),
        set_at_ms: 256,
        proposal_id: id(0xB1),
        key_id: "k".into(),
        signature: vec![0xAB, 0xFF],
    };
    let fields = vec![
        field(1, "tenant-a."),
        field(2, [1]),
        field(3, [1]),
        field(4, "dr"),
        field(5, "User:alice"),
        field(6, [0, 0, 0, 0, 0, 0, 1, 0]),
        field(7, runs::id(0xB1)),
        field(8, "k"),
        field(9, [0xAB, 0xFF]),
    ];
    (V1TopicFreeze(record), fields)
}

fn break_glass_proposal() -> Sample {
    let record = BreakGlassProposalRecord {
        proposal_id: id(0xB1),
        action: BreakGlassAction::DeleteRecords,
        target: "literal:orders".into(),
        proposer: "User:alice".into(),
        reason: "r".into(),
        created_at_ms: 1,
        expires_at_ms: 2,
        approvals: vec![approval_value("User:bob"), approval_value("User:eve")],
        consumed_at_ms: 4,
        withdrawn: true,
    };
    let fields = vec![
        field(1, runs::id(0xB1)),
        field(2, [6]),
        field(3, "literal:orders"),
        field(4, "User:alice"),
        field(5, "r"),
        field(6, [0, 0, 0, 0, 0, 0, 0, 1]),
        field(7, [0, 0, 0, 0, 0, 0, 0, 2]),
        field(8, approval_fields("User:bob")),
        field(8, approval_fields("User:eve")),
        field(9, [0, 0, 0, 0, 0, 0, 0, 4]),
        field(10, [1]),
    ];
    (V1BreakGlassProposal(record), fields)
}

pub fn approval_value(principal: &str) -> BreakGlassApproval {
    BreakGlassApproval {
        principal: principal.into(),
        approved_at_ms: 3,
        key_id: "k".into(),
        signature: vec![0xCD],
    }
}

fn approval_fields(principal: &str) -> Vec<u8> {
    let fields = [
        field(1, principal),
        field(2, [0, 0, 0, 0, 0, 0, 0, 3]),
        field(3, "k"),
        field(4, [0xCD]),
    ];
    fields.concat()
}

fn delete_break_glass_proposal() -> Sample {
    let record = V1DeleteBreakGlassProposal(id(0xB1));
    (record, vec![field(1, runs::id(0xB1))])
}

fn partition_elr() -> Sample {
    let record = PartitionElrRecord {
        topic: "t".into(),
        partition: 2,
        eligible_leader_replicas: vec![NodeId(2)],
        last_known_elr: vec![NodeId(3), NodeId(4)],
    };
    let fields = vec![
        field(1, "t"),
        field(2, [0, 0, 0, 2]),
        field(3, nodes(&[2])),
        field(4, nodes(&[3, 4])),
    ];
    (V1PartitionElr(record), fields)
}

fn partition_recovery() -> Sample {
    let record = PartitionRecoveryRecord {
        topic: "t".into(),
        partition: 2,
        state: LeaderRecoveryState::Recovering,
    };
    let fields = vec![field(1, "t"), field(2, [0, 0, 0, 2]), field(3, [1])];
    (V1PartitionRecovery(record), fields)
}

fn partition_update() -> Sample {
    let record = PartitionUpdateRecord {
        partition: partition_value(),
        eligible_leader_replicas: Some(vec![NodeId(2)]),
        last_known_elr: Some(vec![NodeId(3), NodeId(4)]),
        recovery_state: Some(LeaderRecoveryState::Recovering),
    };
    let fields = vec![
        field(1, partition_fields().concat()),
        field(2, nodes(&[2])),
        field(3, nodes(&[3, 4])),
        field(4, [1]),
    ];
    (V1PartitionUpdate(record), fields)
}

fn broker_registration_change() -> Sample {
    let record = BrokerRegistrationChangeRecord {
        node_id: NodeId(1),
        broker_epoch: 10,
        fenced: FencingChange::Fence,
        in_controlled_shutdown: true,
        log_dirs: vec![id(0xD1)],
        cordoned_log_dirs: Some(vec![id(0xD2), id(0xD3)]),
    };
    let fields = vec![
        field(1, [0, 0, 0, 0, 0, 0, 0, 1]),
        field(2, [0, 0, 0, 0, 0, 0, 0, 10]),
        field(3, [2]),
        field(4, [1]),
        field(5, ids(&[0xD1])),
        field(6, ids(&[0xD2, 0xD3])),
    ];
    (V1BrokerRegistrationChange(record), fields)
}

fn unregister_controller() -> Sample {
    let node_id = NodeId(3000);
    let record = UnregisterControllerRecord { node_id };
    let fields = vec![field(1, [0, 0, 0, 0, 0, 0, 0x0B, 0xB8])];
    (V1UnregisterController(record), fields)
}
