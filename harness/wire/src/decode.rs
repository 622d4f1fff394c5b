//! From bytes to the reference's records.

use std::iter::Peekable;

use krabka_metadata::*;
use uuid::Uuid;

use crate::choices::*;
use crate::read::{HEADER, read_logged};
use crate::run::Run;

/// Reads the log's record at the start of `input`: its value and the bytes that
/// it takes, or `read_logged`'s refusal.
pub fn decode(input: &[u8]) -> Result<(MetadataRecord, usize), u8> {
    let used = read_logged(input)?;
    let fields = &mut Fields::new(&input[HEADER..used]);
    Ok((record(input[0], fields), used))
}

fn record(kind: u8, fields: &mut Fields) -> MetadataRecord {
    use MetadataRecord::*;
    match kind {
        1 => V1Topic(topic(fields)),
        2 => V1Partition(partition(fields)),
        3 => V1BrokerRegistration(broker_registration(fields)),
        4 => V1DeleteTopic(delete_topic(fields)),
        5 => V1TopicConfig(topic_config(fields)),
        6 => V1BrokerConfig(broker_config(fields)),
        7 => V1ClientQuota(client_quota(fields)),
        8 => V1ProducerIds(producer_ids(fields)),
        9 => V1UnregisterBroker(unregister_broker(fields)),
        10 => V1KRaftVersion(kraft_version(fields)),
        11 => V1FeatureLevel(feature_level(fields)),
        12 => V1ClientMetricsConfig(client_metrics_config(fields)),
        13 => V1FeaturesEpoch(features_epoch(fields)),
        14 => V1PartitionDirAssignment(partition_dir_assignment(fields)),
        15 => V1PartitionOffsetAdvance(partition_offset_advance(fields)),
        16 => V1GroupConfig(group_config(fields)),
        17 => V1ControllerRegistration(controller_registration(fields)),
        18 => V1TopicFreeze(topic_freeze(fields)),
        19 => V1BreakGlassProposal(break_glass_proposal(fields)),
        20 => V1DeleteBreakGlassProposal(fields.id()),
        21 => V1PartitionElr(partition_elr(fields)),
        22 => V1PartitionRecovery(partition_recovery(fields)),
        23 => V1PartitionUpdate(partition_update(fields)),
        24 => V1BrokerRegistrationChange(broker_registration_change(fields)),
        25 => V1UnregisterController(unregister_controller(fields)),
        _ => unreachable!("read_logged accepts the kinds 1 to 25"),
    }
}

/// The fields of a run that `read` accepted. Each method that takes a field
/// takes that of the next tag, so they are called in declaration order.
struct Fields<'a> {
    run: Peekable<Run<'a>>,
    tag: u8,
}

impl<'a> Fields<'a> {
    fn new(bytes: &'a [u8]) -> Self {
        let run = Run::new(bytes).peekable();
        Self { run, tag: 0 }
    }

    /// The values of the next tag.
    fn values(&mut self) -> impl Iterator<Item = &'a [u8]> {
        self.tag += 1;
        let tag = self.tag;
        let same_tag = move |field: &Result<(u8, _), u8>| matches!(field, Ok((t, _)) if *t == tag);
        std::iter::from_fn(move || Some(self.run.next_if(same_tag)?.ok()?.1))
    }

    fn optional(&mut self) -> Option<&'a [u8]> {
        self.values().next()
    }

    fn value(&mut self) -> &'a [u8] {
        self.optional().expect("a required field")
    }

    /// One element for each value of the next tag.
    fn each<T, C: FromIterator<T>>(&mut self, element: impl Fn(&mut Fields) -> T) -> C {
        self.values()
            .map(|value| element(&mut Fields::new(value)))
            .collect()
    }

    fn array<const N: usize>(&mut self) -> [u8; N] {
        array(self.value())
    }

    fn u16(&mut self) -> u16 {
        u16::from_be_bytes(self.array())
    }

    fn i16(&mut self) -> i16 {
        i16::from_be_bytes(self.array())
    }

    fn i32(&mut self) -> i32 {
        i32::from_be_bytes(self.array())
    }

    fn i64(&mut self) -> i64 {
        i64::from_be_bytes(self.array())
    }

    fn node(&mut self) -> NodeId {
        NodeId(u64::from_be_bytes(self.array()))
    }

    fn id(&mut self) -> Uuid {
        Uuid::from_bytes(self.array())
    }

    fn flag(&mut self) -> bool {
        self.array() == [1]
    }

    fn choice<T: Copy>(&mut self, choices: &[T]) -> T {
        choice(self.value(), choices)
    }

    fn string(&mut self) -> String {
        string(self.value())
    }

    fn nodes(&mut self) -> Vec<NodeId> {
        nodes(self.value())
    }

    fn ids(&mut self) -> Vec<Uuid> {
        ids(self.value())
    }
}

fn array<const N: usize>(value: &[u8]) -> [u8; N] {
    value.try_into().expect("a value of its form's length")
}

fn choice<T: Copy>(value: &[u8], choices: &[T]) -> T {
    choices[usize::from(value[0])]
}

fn string(value: &[u8]) -> String {
    str::from_utf8(value).expect("UTF-8").to_owned()
}

fn nodes(value: &[u8]) -> Vec<NodeId> {
    let node = |bytes| NodeId(u64::from_be_bytes(array(bytes)));
    value.chunks(8).map(node).collect()
}

fn ids(value: &[u8]) -> Vec<Uuid> {
    let id = |bytes| Uuid::from_bytes(array(bytes));
    value.chunks(16).map(id).collect()
}

fn topic(fields: &mut Fields) -> TopicRecord {
    TopicRecord {
        name: fields.string(),
        topic_id: fields.id(),
        partitions: fields.i32(),
        replication_factor: fields.i16(),
    }
}

fn partition(fields: &mut Fields) -> PartitionRecord {
    PartitionRecord {
        topic: fields.string(),
        partition: fields.i32(),
        leader: fields.node(),
        replicas: fields.nodes(),
        isr: fields.nodes(),
        leader_epoch: LeaderEpoch(fields.i32()),
        adding_replicas: fields.nodes(),
        removing_replicas: fields.nodes(),
        directories: fields.ids(),
        partition_epoch: fields.i32(),
    }
}

fn broker_registration(fields: &mut Fields) -> BrokerRegistrationRecord {
    BrokerRegistrationRecord {
        node_id: fields.node(),
        broker_epoch: fields.i64(),
        incarnation_id: fields.id(),
        host: fields.string(),
        port: fields.u16(),
        rack: fields.optional().map(string),
        endpoints: fields.each(endpoint),
        log_dirs: fields.ids(),
        fenced: fields.flag(),
        in_controlled_shutdown: fields.flag(),
        cordoned_log_dirs: fields.optional().map(ids),
        features: fields.each(feature),
    }
}

fn endpoint(fields: &mut Fields) -> BrokerEndpoint {
    BrokerEndpoint {
        name: fields.string(),
        host: fields.string(),
        port: fields.u16(),
        protocol: fields.choice(&PROTOCOLS),
    }
}

fn feature(fields: &mut Fields) -> (String, (i16, i16)) {
    (fields.string(), (fields.i16(), fields.i16()))
}

fn pair(fields: &mut Fields) -> (String, String) {
    (fields.string(), fields.string())
}

fn delete_topic(fields: &mut Fields) -> DeleteTopicRecord {
    DeleteTopicRecord {
        name: fields.string(),
    }
}

fn topic_config(fields: &mut Fields) -> TopicConfigRecord {
    TopicConfigRecord {
        topic: fields.string(),
        overrides: fields.each(pair),
    }
}

fn broker_config(fields: &mut Fields) -> BrokerConfigRecord {
    BrokerConfigRecord {
        node_id: fields.node(),
        config_name: fields.string(),
        config_value: fields.optional().map(string),
    }
}

fn client_quota(fields: &mut Fields) -> ClientQuotaRecord {
    let double = |value| f64::from_bits(u64::from_be_bytes(array(value)));
    ClientQuotaRecord {
        entity: fields.each(entity),
        config_key: fields.string(),
        config_value: fields.optional().map(double),
    }
}

fn entity(fields: &mut Fields) -> QuotaEntity {
    QuotaEntity {
        entity_type: fields.string(),
        entity_name: fields.optional().map(string),
    }
}

fn producer_ids(fields: &mut Fields) -> ProducerIdsRecord {
    ProducerIdsRecord {
        broker_id: fields.node(),
        broker_epoch: fields.i64(),
        next_producer_id: fields.i64(),
    }
}

fn unregister_broker(fields: &mut Fields) -> UnregisterBrokerRecord {
    UnregisterBrokerRecord {
        node_id: fields.node(),
        broker_epoch: fields.i64(),
    }
}

fn kraft_version(fields: &mut Fields) -> KRaftVersionRecord {
    KRaftVersionRecord {
        kraft_version: fields.u16(),
    }
}

fn feature_level(fields: &mut Fields) -> FeatureLevelRecord {
    FeatureLevelRecord {
        name: fields.string(),
        level: fields.i16(),
    }
}

fn client_metrics_config(fields: &mut Fields) -> ClientMetricsConfigRecord {
    ClientMetricsConfigRecord {
        name: fields.string(),
        configs: fields.each(pair),
    }
}

fn features_epoch(fields: &mut Fields) -> FeaturesEpochRecord {
    FeaturesEpochRecord {
        epoch: fields.i64(),
    }
}

fn partition_dir_assignment(fields: &mut Fields) -> PartitionDirAssignmentRecord {
    PartitionDirAssignmentRecord {
        topic: fields.string(),
        partition: fields.i32(),
        replica: fields.node(),
        directory: fields.id(),
    }
}

fn partition_offset_advance(fields: &mut Fields) -> PartitionOffsetAdvanceRecord {
    PartitionOffsetAdvanceRecord {
        topic: fields.string(),
        partition: fields.i32(),
        count: fields.i64(),
    }
}

fn group_config(fields: &mut Fields) -> GroupConfigRecord {
    GroupConfigRecord {
        group_id: fields.string(),
        configs: fields.each(pair),
    }
}

fn controller_registration(fields: &mut Fields) -> ControllerRegistrationRecord {
    ControllerRegistrationRecord {
        node_id: fields.node(),
        incarnation_id: fields.id(),
        zk_migration_ready: fields.flag(),
        endpoints: fields.each(endpoint),
        features: fields.each(feature),
    }
}

fn topic_freeze(fields: &mut Fields) -> TopicFreezeRecord {
    TopicFreezeRecord {
        scope: fields.string(),
        pattern_type: fields.choice(&PATTERN_TYPES),
        frozen: fields.flag(),
        reason: fields.string(),
        set_by: fields.string(),
        set_at_ms: fields.i64(),
        proposal_id: fields.id(),
        key_id: fields.string(),
        signature: fields.value().to_vec(),
    }
}

fn break_glass_proposal(fields: &mut Fields) -> BreakGlassProposalRecord {
    BreakGlassProposalRecord {
        proposal_id: fields.id(),
        action: fields.choice(&ACTIONS),
        target: fields.string(),
        proposer: fields.string(),
        reason: fields.string(),
        created_at_ms: fields.i64(),
        expires_at_ms: fields.i64(),
        approvals: fields.each(approval),
        consumed_at_ms: fields.i64(),
        withdrawn: fields.flag(),
    }
}

fn approval(fields: &mut Fields) -> BreakGlassApproval {
    BreakGlassApproval {
        principal: fields.string(),
        approved_at_ms: fields.i64(),
        key_id: fields.string(),
        signature: fields.value().to_vec(),
    }
}

fn partition_elr(fields: &mut Fields) -> PartitionElrRecord {
    PartitionElrRecord {
        topic: fields.string(),
        partition: fields.i32(),
        eligible_leader_replicas: fields.nodes(),
        last_known_elr: fields.nodes(),
    }
}

fn partition_recovery(fields: &mut Fields) -> PartitionRecoveryRecord {
    PartitionRecoveryRecord {
        topic: fields.string(),
        partition: fields.i32(),
        state: fields.choice(&RECOVERY_STATES),
    }
}

fn partition_update(fields: &mut Fields) -> PartitionUpdateRecord {
    let state = |value| choice(value, &RECOVERY_STATES);
    PartitionUpdateRecord {
        partition: partition(&mut Fields::new(fields.value())),
        eligible_leader_replicas: fields.optional().map(nodes),
        last_known_elr: fields.optional().map(nodes),
        recovery_state: fields.optional().map(state),
    }
}

fn broker_registration_change(fields: &mut Fields) -> BrokerRegistrationChangeRecord {
    BrokerRegistrationChangeRecord {
        node_id: fields.node(),
        broker_epoch: fields.i64(),
        fenced: fields.choice(&FENCING_CHANGES),
        in_controlled_shutdown: fields.flag(),
        log_dirs: fields.ids(),
        cordoned_log_dirs: fields.optional().map(ids),
    }
}

fn unregister_controller(fields: &mut Fields) -> UnregisterControllerRecord {
    UnregisterControllerRecord {
        node_id: fields.node(),
    }
}
