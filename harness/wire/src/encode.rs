//! From the reference's records to bytes.

use std::collections::BTreeMap;

use krabka_metadata::*;
use uuid::Uuid;

/// The record's bytes, or `None` for the records that have none: access control
/// entries, SCRAM credentials, delegation tokens and voters. Limits are not
/// checked.
///
/// # Panics
///
/// Where a length needs more than two bytes; no record within the limits does.
pub fn encode(record: &MetadataRecord) -> Option<Vec<u8>> {
    use MetadataRecord::*;
    let (kind, fields) = match record {
        V1Topic(record) => (1, topic(record)),
        V1Partition(record) => (2, partition(record)),
        V1BrokerRegistration(record) => (3, broker_registration(record)),
        V1DeleteTopic(record) => (4, Fields::new().value(&record.name)),
        V1TopicConfig(record) => (5, configs(&record.topic, &record.overrides)),
        V1BrokerConfig(record) => (6, broker_config(record)),
        V1ClientQuota(record) => (7, client_quota(record)),
        V1ProducerIds(record) => (8, producer_ids(record)),
        V1UnregisterBroker(record) => (9, unregister_broker(record)),
        V1KRaftVersion(record) => (10, Fields::new().value(record.kraft_version.to_be_bytes())),
        V1FeatureLevel(record) => (11, feature_level(record)),
        V1ClientMetricsConfig(record) => (12, configs(&record.name, &record.configs)),
        V1FeaturesEpoch(record) => (13, Fields::new().value(record.epoch.to_be_bytes())),
        V1PartitionDirAssignment(record) => (14, partition_dir_assignment(record)),
        V1PartitionOffsetAdvance(record) => (15, partition_offset_advance(record)),
        V1GroupConfig(record) => (16, configs(&record.group_id, &record.configs)),
        V1ControllerRegistration(record) => (17, controller_registration(record)),
        V1TopicFreeze(record) => (18, topic_freeze(record)),
        V1BreakGlassProposal(record) => (19, break_glass_proposal(record)),
        V1DeleteBreakGlassProposal(id) => (20, Fields::new().value(id.as_bytes())),
        V1PartitionElr(record) => (21, partition_elr(record)),
        V1PartitionRecovery(record) => (22, partition_recovery(record)),
        V1PartitionUpdate(record) => (23, partition_update(record)),
        V1BrokerRegistrationChange(record) => (24, broker_registration_change(record)),
        V1UnregisterController(record) => (25, Fields::new().node(record.node_id)),
        _ => return None,
    };
    Some(field(kind, &fields.bytes))
}

/// The bytes of a record that has some.
///
/// # Panics
///
/// Where it has none.
pub fn encoded(record: &MetadataRecord) -> Vec<u8> {
    encode(record).expect("a kind that 01 has")
}

/// The records' bytes, back to back.
pub fn encoded_all(records: &[MetadataRecord]) -> Vec<u8> {
    records.iter().flat_map(encoded).collect()
}

/// A field of a tag, or the record of a kind: the tag or kind, the length, and
/// the bytes.
pub fn field(first: u8, bytes: &[u8]) -> Vec<u8> {
    let length = u16::try_from(bytes.len()).expect("a length of at most two bytes");
    [&[first], &length.to_be_bytes()[..], bytes].concat()
}

/// The fields of a run. Each method that writes a field gives it the next tag,
/// so they are called in the struct's declaration order.
struct Fields {
    bytes: Vec<u8>,
    tag: u8,
}

impl Fields {
    fn new() -> Self {
        let (bytes, tag) = (Vec::new(), 0);
        Self { bytes, tag }
    }

    fn value(self, value: impl AsRef<[u8]>) -> Self {
        self.each([value])
    }

    fn optional(self, value: Option<impl AsRef<[u8]>>) -> Self {
        self.each(value)
    }

    /// One field of the same tag for each value.
    fn each(mut self, values: impl IntoIterator<Item = impl AsRef<[u8]>>) -> Self {
        self.tag += 1;
        for value in values {
            self.bytes.extend(field(self.tag, value.as_ref()));
        }
        self
    }

    fn node(self, node: NodeId) -> Self {
        self.value(node.0.to_be_bytes())
    }

    fn flag(self, flag: bool) -> Self {
        self.value([u8::from(flag)])
    }
}

/// A run is the value of a field.
impl AsRef<[u8]> for Fields {
    fn as_ref(&self) -> &[u8] {
        &self.bytes
    }
}

fn nodes(list: &[NodeId]) -> Vec<u8> {
    list.iter().flat_map(|node| node.0.to_be_bytes()).collect()
}

fn ids(list: &[Uuid]) -> Vec<u8> {
    list.iter().flat_map(|id| *id.as_bytes()).collect()
}

fn topic(record: &TopicRecord) -> Fields {
    Fields::new()
        .value(&record.name)
        .value(record.topic_id.as_bytes())
        .value(record.partitions.to_be_bytes())
        .value(record.replication_factor.to_be_bytes())
}

fn partition(record: &PartitionRecord) -> Fields {
    Fields::new()
        .value(&record.topic)
        .value(record.partition.to_be_bytes())
        .node(record.leader)
        .value(nodes(&record.replicas))
        .value(nodes(&record.isr))
        .value(record.leader_epoch.0.to_be_bytes())
        .value(nodes(&record.adding_replicas))
        .value(nodes(&record.removing_replicas))
        .value(ids(&record.directories))
        .value(record.partition_epoch.to_be_bytes())
}

fn broker_registration(record: &BrokerRegistrationRecord) -> Fields {
    Fields::new()
        .node(record.node_id)
        .value(record.broker_epoch.to_be_bytes())
        .value(record.incarnation_id.as_bytes())
        .value(&record.host)
        .value(record.port.to_be_bytes())
        .optional(record.rack.as_ref())
        .each(record.endpoints.iter().map(endpoint))
        .value(ids(&record.log_dirs))
        .flag(record.fenced)
        .flag(record.in_controlled_shutdown)
        .optional(record.cordoned_log_dirs.as_deref().map(ids))
        .each(record.features.iter().map(feature))
}

fn endpoint(endpoint: &BrokerEndpoint) -> Fields {
    Fields::new()
        .value(&endpoint.name)
        .value(&endpoint.host)
        .value(endpoint.port.to_be_bytes())
        .value([endpoint.protocol as u8])
}

fn feature((name, (low, high)): (&String, &(i16, i16))) -> Fields {
    Fields::new()
        .value(name)
        .value(low.to_be_bytes())
        .value(high.to_be_bytes())
}

/// The config of a topic, a metrics subscription or a group.
fn configs(name: &str, configs: &BTreeMap<String, String>) -> Fields {
    Fields::new().value(name).each(configs.iter().map(pair))
}

fn pair((key, value): (&String, &String)) -> Fields {
    Fields::new().value(key).value(value)
}

fn broker_config(record: &BrokerConfigRecord) -> Fields {
    Fields::new()
        .node(record.node_id)
        .value(&record.config_name)
        .optional(record.config_value.as_ref())
}

fn client_quota(record: &ClientQuotaRecord) -> Fields {
    let value = record.config_value;
    Fields::new()
        .each(record.entity.iter().map(entity))
        .value(&record.config_key)
        .optional(value.map(|value| value.to_bits().to_be_bytes()))
}

fn entity(entity: &QuotaEntity) -> Fields {
    Fields::new()
        .value(&entity.entity_type)
        .optional(entity.entity_name.as_ref())
}

fn producer_ids(record: &ProducerIdsRecord) -> Fields {
    Fields::new()
        .node(record.broker_id)
        .value(record.broker_epoch.to_be_bytes())
        .value(record.next_producer_id.to_be_bytes())
}

fn unregister_broker(record: &UnregisterBrokerRecord) -> Fields {
    Fields::new()
        .node(record.node_id)
        .value(record.broker_epoch.to_be_bytes())
}

fn feature_level(record: &FeatureLevelRecord) -> Fields {
    Fields::new()
        .value(&record.name)
        .value(record.level.to_be_bytes())
}

fn partition_dir_assignment(record: &PartitionDirAssignmentRecord) -> Fields {
    Fields::new()
        .value(&record.topic)
        .value(record.partition.to_be_bytes())
        .node(record.replica)
        .value(record.directory.as_bytes())
}

fn partition_offset_advance(record: &PartitionOffsetAdvanceRecord) -> Fields {
    Fields::new()
        .value(&record.topic)
        .value(record.partition.to_be_bytes())
        .value(record.count.to_be_bytes())
}

fn controller_registration(record: &ControllerRegistrationRecord) -> Fields {
    Fields::new()
        .node(record.node_id)
        .value(record.incarnation_id.as_bytes())
        .flag(record.zk_migration_ready)
        .each(record.endpoints.iter().map(endpoint))
        .each(record.features.iter().map(feature))
}

fn topic_freeze(record: &TopicFreezeRecord) -> Fields {
    Fields::new()
        .value(&record.scope)
        .value([record.pattern_type as u8])
        .flag(record.frozen)
        .value(&record.reason)
        .value(&record.set_by)
        .value(record.set_at_ms.to_be_bytes())
        .value(record.proposal_id.as_bytes())
        .value(&record.key_id)
        .value(&record.signature)
}

fn break_glass_proposal(record: &BreakGlassProposalRecord) -> Fields {
    Fields::new()
        .value(record.proposal_id.as_bytes())
        .value([record.action as u8])
        .value(&record.target)
        .value(&record.proposer)
        .value(&record.reason)
        .value(record.created_at_ms.to_be_bytes())
        .value(record.expires_at_ms.to_be_bytes())
        .each(record.approvals.iter().map(approval))
        .value(record.consumed_at_ms.to_be_bytes())
        .flag(record.withdrawn)
}

fn approval(approval: &BreakGlassApproval) -> Fields {
    Fields::new()
        .value(&approval.principal)
        .value(approval.approved_at_ms.to_be_bytes())
        .value(&approval.key_id)
        .value(&approval.signature)
}

fn partition_elr(record: &PartitionElrRecord) -> Fields {
    Fields::new()
        .value(&record.topic)
        .value(record.partition.to_be_bytes())
        .value(nodes(&record.eligible_leader_replicas))
        .value(nodes(&record.last_known_elr))
}

fn partition_recovery(record: &PartitionRecoveryRecord) -> Fields {
    Fields::new()
        .value(&record.topic)
        .value(record.partition.to_be_bytes())
        .value([record.state as u8])
}

fn partition_update(record: &PartitionUpdateRecord) -> Fields {
    let eligible = record.eligible_leader_replicas.as_deref();
    Fields::new()
        .value(partition(&record.partition))
        .optional(eligible.map(nodes))
        .optional(record.last_known_elr.as_deref().map(nodes))
        .optional(record.recovery_state.map(|state| [state as u8]))
}

fn broker_registration_change(record: &BrokerRegistrationChangeRecord) -> Fields {
    Fields::new()
        .node(record.node_id)
        .value(record.broker_epoch.to_be_bytes())
        .value([record.fenced as u8])
        .flag(record.in_controlled_shutdown)
        .value(ids(&record.log_dirs))
        .optional(record.cordoned_log_dirs.as_deref().map(ids))
}
