//! One record of each kind, drawn with a view of the image: mostly such that
//! it names what is stored.

use krabka_metadata::{
    BreakGlassApproval, BreakGlassProposalRecord, BrokerConfigRecord,
    BrokerRegistrationChangeRecord, BrokerRegistrationRecord, ClientMetricsConfigRecord,
    ClientQuotaRecord, ControllerRegistrationRecord, DeleteTopicRecord, FeatureLevelRecord,
    FeaturesEpochRecord, GroupConfigRecord, KRaftVersionRecord, LeaderEpoch, LeaderRecoveryState,
    MetadataImage, MetadataRecord, NodeId, PartitionDirAssignmentRecord, PartitionElrRecord,
    PartitionOffsetAdvanceRecord, PartitionRecord, PartitionRecoveryRecord, PartitionUpdateRecord,
    ProducerIdsRecord, TopicConfigRecord, TopicFreezeRecord, TopicRecord, UnregisterBrokerRecord,
    UnregisterControllerRecord,
};
use uuid::Uuid;
use wire::choices::{ACTIONS, FENCING_CHANGES, PATTERN_TYPES, RECOVERY_STATES};

use super::Generator;
use super::values::SCOPES;

const FEATURES: [&str; 5] = ["a", "b", "metadata.version", "", "𝄞"];

impl Generator {
    pub(super) fn draw(&mut self, image: &MetadataImage) -> MetadataRecord {
        let weights = self.knobs.weights;
        match self.random.weighted(&weights) + 1 {
            1 => MetadataRecord::V1Topic(self.topic(image)),
            2 => MetadataRecord::V1Partition(self.partition(image)),
            3 => MetadataRecord::V1BrokerRegistration(self.broker()),
            4 => MetadataRecord::V1DeleteTopic(self.delete_topic(image)),
            5 => MetadataRecord::V1TopicConfig(self.topic_config(image)),
            6 => MetadataRecord::V1BrokerConfig(self.broker_config()),
            7 => MetadataRecord::V1ClientQuota(self.client_quota()),
            8 => MetadataRecord::V1ProducerIds(self.producer_ids(image)),
            9 => MetadataRecord::V1UnregisterBroker(self.unregister_broker(image)),
            10 => MetadataRecord::V1KRaftVersion(self.kraft_version()),
            11 => MetadataRecord::V1FeatureLevel(self.feature_level()),
            12 => MetadataRecord::V1ClientMetricsConfig(self.client_metrics_config()),
            13 => MetadataRecord::V1FeaturesEpoch(self.features_epoch()),
            14 => MetadataRecord::V1PartitionDirAssignment(self.dir_assignment(image)),
            15 => MetadataRecord::V1PartitionOffsetAdvance(self.offset_advance(image)),
            16 => MetadataRecord::V1GroupConfig(self.group_config()),
            17 => MetadataRecord::V1ControllerRegistration(self.controller()),
            18 => MetadataRecord::V1TopicFreeze(self.freeze()),
            19 => MetadataRecord::V1BreakGlassProposal(self.proposal(image)),
            20 => MetadataRecord::V1DeleteBreakGlassProposal(self.id()),
            21 => MetadataRecord::V1PartitionElr(self.elr(image)),
            22 => MetadataRecord::V1PartitionRecovery(self.recovery(image)),
            23 => MetadataRecord::V1PartitionUpdate(self.partition_update(image)),
            24 => MetadataRecord::V1BrokerRegistrationChange(self.broker_change(image)),
            _ => MetadataRecord::V1UnregisterController(self.unregister_controller(image)),
        }
    }

    /// A stored topic's name, or any of the pool. The image's own order is a
    /// hash's, so stored names are sorted before one is picked.
    fn topic_name(&mut self, image: &MetadataImage) -> String {
        let mut stored: Vec<&str> = image.topics().map(|topic| topic.name.as_str()).collect();
        stored.sort_unstable();
        match self.random.choose(&stored) {
            Some(name) if self.random.percent(75) => name.to_owned(),
            _ => self.any_topic_name(),
        }
    }

    /// Under the premises a name decides its id, so that no two share one.
    fn topic_id(&mut self, name: &str) -> Uuid {
        match self.knobs.premises {
            true => Uuid::from_u64_pair(name_number(name), 1),
            false => self.id(),
        }
    }

    /// Under the premises a name decides its replication factor too.
    fn factor(&mut self, name: &str) -> i16 {
        match self.knobs.premises {
            true => (name_number(name) % 4) as i16,
            false => self.i16(),
        }
    }

    /// A new topic, or one that grows a stored topic, or neither.
    fn topic(&mut self, image: &MetadataImage) -> TopicRecord {
        let name = match self.flag() {
            true => self.any_topic_name(),
            false => self.topic_name(image),
        };
        let mut record = TopicRecord {
            topic_id: self.topic_id(&name),
            partitions: self.i32(),
            replication_factor: self.factor(&name),
            name,
        };
        if let Some(stored) = image.topic(&record.name)
            && self.random.percent(80)
        {
            record.topic_id = stored.topic_id;
            record.replication_factor = stored.replication_factor;
            let more = self.random.below(3) as i32;
            record.partitions = image.topic_partition_count(&record.name) + more;
        }
        record
    }

    fn replicas(&mut self, image: &MetadataImage, topic: &str) -> Vec<NodeId> {
        if self.knobs.premises {
            let count = self.factor(topic);
            return self.distinct_nodes(count as usize);
        }
        match image.topic(topic) {
            Some(topic) if self.random.percent(70) => {
                self.distinct_nodes(topic.replication_factor.clamp(0, 64) as usize)
            }
            _ => {
                let count = self.nodes().len();
                self.distinct_nodes(count)
            }
        }
    }

    /// The replicas, fewer of them, or any nodes.
    fn isr(&mut self, replicas: &[NodeId]) -> Vec<NodeId> {
        match self.random.below(3) {
            0 => replicas.to_vec(),
            1 => replicas[..self.random.below(replicas.len() + 1)].to_vec(),
            _ => self.nodes(),
        }
    }

    fn partition(&mut self, image: &MetadataImage) -> PartitionRecord {
        let topic = self.topic_name(image);
        let replicas = self.replicas(image, &topic);
        PartitionRecord {
            topic,
            partition: self.partition_number(),
            leader: self.node(),
            isr: self.isr(&replicas),
            replicas,
            leader_epoch: LeaderEpoch(self.i32()),
            adding_replicas: self.nodes(),
            removing_replicas: self.nodes(),
            directories: self.ids(),
            partition_epoch: self.i32(),
        }
    }

    fn broker(&mut self) -> BrokerRegistrationRecord {
        BrokerRegistrationRecord {
            node_id: self.node(),
            broker_epoch: self.i64(),
            incarnation_id: self.id(),
            host: self.text(),
            port: self.u16(),
            rack: self.maybe(50, Self::text),
            endpoints: self.endpoints(),
            log_dirs: self.ids(),
            fenced: self.flag(),
            in_controlled_shutdown: self.flag(),
            cordoned_log_dirs: self.maybe(60, Self::ids),
            features: self.features(),
        }
    }

    fn delete_topic(&mut self, image: &MetadataImage) -> DeleteTopicRecord {
        DeleteTopicRecord {
            name: self.topic_name(image),
        }
    }

    fn topic_config(&mut self, image: &MetadataImage) -> TopicConfigRecord {
        TopicConfigRecord {
            topic: self.topic_name(image),
            overrides: self.configs(),
        }
    }

    fn broker_config(&mut self) -> BrokerConfigRecord {
        BrokerConfigRecord {
            node_id: self.node(),
            config_name: self.config_name(),
            config_value: self.maybe(70, Self::config_value),
        }
    }

    fn client_quota(&mut self) -> ClientQuotaRecord {
        ClientQuotaRecord {
            entity: self.entities(),
            config_key: self.text_of(&["rate", "", "𝄞"]),
            config_value: self.maybe(70, Self::quota),
        }
    }

    /// A stored broker at its epoch, or any node and epoch.
    fn broker_at_epoch(&mut self, image: &MetadataImage) -> (NodeId, i64) {
        let mut stored: Vec<(NodeId, i64)> = image
            .brokers()
            .map(|broker| (broker.node_id, broker.broker_epoch))
            .collect();
        stored.sort_unstable();
        match self.random.choose(&stored) {
            Some(broker) if self.random.percent(75) => broker,
            Some((node, _)) if self.flag() => (node, self.i64()),
            _ => (self.node(), self.i64()),
        }
    }

    fn producer_ids(&mut self, image: &MetadataImage) -> ProducerIdsRecord {
        let (broker_id, broker_epoch) = self.broker_at_epoch(image);
        let more = self.random.below(4) as i64;
        let next = image.next_producer_id().saturating_add(more);
        ProducerIdsRecord {
            broker_id,
            broker_epoch,
            next_producer_id: if self.extreme() { self.i64() } else { next },
        }
    }

    fn unregister_broker(&mut self, image: &MetadataImage) -> UnregisterBrokerRecord {
        let (node_id, broker_epoch) = self.broker_at_epoch(image);
        UnregisterBrokerRecord {
            node_id,
            broker_epoch,
        }
    }

    fn kraft_version(&mut self) -> KRaftVersionRecord {
        KRaftVersionRecord {
            kraft_version: self.u16(),
        }
    }

    fn feature_level(&mut self) -> FeatureLevelRecord {
        FeatureLevelRecord {
            name: self.text_of(&FEATURES),
            level: self.i16(),
        }
    }

    fn client_metrics_config(&mut self) -> ClientMetricsConfigRecord {
        ClientMetricsConfigRecord {
            name: self.text(),
            configs: self.configs(),
        }
    }

    fn features_epoch(&mut self) -> FeaturesEpochRecord {
        let epoch = self.i64();
        match self.knobs.premises {
            true => FeaturesEpochRecord {
                epoch: epoch.max(0),
            },
            false => FeaturesEpochRecord { epoch },
        }
    }

    /// A stored partition, or any topic and number.
    fn partition_place(&mut self, image: &MetadataImage) -> (String, i32) {
        let mut stored: Vec<(&str, i32)> = image
            .all_partitions()
            .map(|partition| (partition.topic.as_str(), partition.partition))
            .collect();
        stored.sort_unstable();
        match self.random.choose(&stored) {
            Some((topic, number)) if self.random.percent(80) => (topic.to_owned(), number),
            _ => (self.topic_name(image), self.partition_number()),
        }
    }

    /// Mostly a replica that the partition has.
    fn dir_assignment(&mut self, image: &MetadataImage) -> PartitionDirAssignmentRecord {
        let (topic, partition) = self.partition_place(image);
        let stored = image.partition(&topic, partition);
        let replicas = stored.map_or(&[][..], |stored| &stored.replicas);
        let replica = match self.random.choose(replicas) {
            Some(replica) if self.random.percent(80) => replica,
            _ => self.node(),
        };
        PartitionDirAssignmentRecord {
            topic,
            partition,
            replica,
            directory: self.id(),
        }
    }

    fn offset_advance(&mut self, image: &MetadataImage) -> PartitionOffsetAdvanceRecord {
        let (topic, partition) = self.partition_place(image);
        PartitionOffsetAdvanceRecord {
            topic,
            partition,
            count: self.i64(),
        }
    }

    fn group_config(&mut self) -> GroupConfigRecord {
        GroupConfigRecord {
            group_id: self.text(),
            configs: self.configs(),
        }
    }

    fn controller(&mut self) -> ControllerRegistrationRecord {
        ControllerRegistrationRecord {
            node_id: self.node(),
            incarnation_id: self.id(),
            zk_migration_ready: self.flag(),
            endpoints: self.endpoints(),
            features: self.features(),
        }
    }

    fn freeze(&mut self) -> TopicFreezeRecord {
        TopicFreezeRecord {
            scope: self.text_of(&SCOPES),
            pattern_type: self.random.pick(&PATTERN_TYPES),
            frozen: self.random.percent(75),
            reason: self.text(),
            set_by: self.text(),
            set_at_ms: self.i64(),
            proposal_id: self.id(),
            key_id: self.text(),
            signature: self.signature(),
        }
    }

    fn proposal(&mut self, image: &MetadataImage) -> BreakGlassProposalRecord {
        let proposal_id = self.id();
        let settled = self.random.percent(15);
        BreakGlassProposalRecord {
            proposal_id,
            action: self.random.pick(&ACTIONS),
            target: self.text(),
            proposer: self.text(),
            reason: self.text(),
            created_at_ms: self.i64(),
            expires_at_ms: self.i64(),
            approvals: self.proposal_approvals(image, proposal_id),
            consumed_at_ms: if settled { self.i64() } else { 0 },
            withdrawn: settled && self.flag(),
        }
    }

    /// Mostly the stored approvals and perhaps more; else any.
    fn proposal_approvals(&mut self, image: &MetadataImage, id: Uuid) -> Vec<BreakGlassApproval> {
        let count = self.length(16);
        let mut approvals = match image.break_glass_proposal(id) {
            Some(stored) if self.random.percent(75) => stored.approvals.clone(),
            _ => return self.approvals(count),
        };
        approvals.extend(self.approvals(count));
        approvals.truncate(16);
        approvals
    }

    fn elr(&mut self, image: &MetadataImage) -> PartitionElrRecord {
        let (topic, partition) = self.partition_place(image);
        PartitionElrRecord {
            topic,
            partition,
            eligible_leader_replicas: self.nodes(),
            last_known_elr: self.nodes(),
        }
    }

    fn recovery_state(&mut self) -> LeaderRecoveryState {
        self.random.pick(&RECOVERY_STATES)
    }

    fn recovery(&mut self, image: &MetadataImage) -> PartitionRecoveryRecord {
        let (topic, partition) = self.partition_place(image);
        PartitionRecoveryRecord {
            topic,
            partition,
            state: self.recovery_state(),
        }
    }

    fn partition_update(&mut self, image: &MetadataImage) -> PartitionUpdateRecord {
        PartitionUpdateRecord {
            partition: self.partition(image),
            eligible_leader_replicas: self.maybe(70, Self::nodes),
            last_known_elr: self.maybe(70, Self::nodes),
            recovery_state: self.maybe(60, Self::recovery_state),
        }
    }

    fn broker_change(&mut self, image: &MetadataImage) -> BrokerRegistrationChangeRecord {
        let (node_id, broker_epoch) = self.broker_at_epoch(image);
        BrokerRegistrationChangeRecord {
            node_id,
            broker_epoch,
            fenced: self.random.pick(&FENCING_CHANGES),
            in_controlled_shutdown: self.flag(),
            log_dirs: self.ids(),
            cordoned_log_dirs: self.maybe(60, Self::ids),
        }
    }

    fn unregister_controller(&mut self, image: &MetadataImage) -> UnregisterControllerRecord {
        let mut stored: Vec<NodeId> = image.controllers().map(|c| c.node_id).collect();
        stored.sort_unstable();
        match self.random.choose(&stored) {
            Some(node_id) if self.random.percent(75) => UnregisterControllerRecord { node_id },
            _ => UnregisterControllerRecord {
                node_id: self.node(),
            },
        }
    }
}

/// A number for a name, different for each of the generator's names: FNV-1a.
fn name_number(name: &str) -> u64 {
    name.bytes().fold(0xCBF2_9CE4_8422_2325, |hash, byte| {
        (hash ^ u64::from(byte)).wrapping_mul(0x0100_0000_01B3)
    })
}
