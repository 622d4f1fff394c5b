//! The shape table: the fields of each kind of record, in the order of their tags.

use Form::*;
use Presence::*;

/// How a field's value is written.
#[derive(Clone, Copy, Debug)]
pub enum Form {
    U16,
    U64,
    I16,
    I32,
    I64,
    F64,
    Id,
    Bool,
    Enum,
    String,
    /// A string that is the key of a map's element.
    Key,
    Bytes,
    Nodes,
    /// Nodes, none of which comes twice.
    NodeSet,
    Ids,
    /// A log offset: an i64 that is not below -1.
    Offset,
    /// A run of fields by a shape of its own.
    Nested(&'static Shape),
}

/// How often a field stands in its run.
#[derive(Clone, Copy, Debug, PartialEq, Eq)]
pub enum Presence {
    Required,
    Optional,
    /// Once for each element, at most so many times.
    UpTo(usize),
}

#[derive(Clone, Copy, Debug)]
pub struct Row {
    pub tag: u8,
    pub name: &'static str,
    pub form: Form,
    /// Of a number, id or offset its bytes, of a bool or enum the number of its
    /// values, of a string, key or bytes the most bytes, of nodes and ids the
    /// most elements, of a nested run 0.
    pub size: usize,
    pub presence: Presence,
}

#[derive(Clone, Copy, Debug)]
pub struct Shape {
    pub name: &'static str,
    /// The row of tag `n` stands at `n - 1`.
    pub rows: &'static [Row],
}

/// The shape of the kind, where there is such a kind.
pub fn shape(kind: u8) -> Option<&'static Shape> {
    KINDS.get(usize::from(kind).checked_sub(1)?)
}

/// The shapes of the kinds 1 to 26. The last is none of the log's records.
pub static KINDS: [Shape; 26] = [
    TOPIC,
    PARTITION,
    BROKER_REGISTRATION,
    DELETE_TOPIC,
    TOPIC_CONFIG,
    BROKER_CONFIG,
    CLIENT_QUOTA,
    PRODUCER_IDS,
    UNREGISTER_BROKER,
    KRAFT_VERSION,
    FEATURE_LEVEL,
    CLIENT_METRICS_CONFIG,
    FEATURES_EPOCH,
    PARTITION_DIR_ASSIGNMENT,
    PARTITION_OFFSET_ADVANCE,
    GROUP_CONFIG,
    CONTROLLER_REGISTRATION,
    TOPIC_FREEZE,
    BREAK_GLASS_PROPOSAL,
    DELETE_BREAK_GLASS_PROPOSAL,
    PARTITION_ELR,
    PARTITION_RECOVERY,
    PARTITION_UPDATE,
    BROKER_REGISTRATION_CHANGE,
    UNREGISTER_CONTROLLER,
    LOG_OFFSET,
];

/// The shapes of the elements of compound lists and maps.
pub static ELEMENTS: [Shape; 5] = [ENDPOINT, APPROVAL, ENTITY, PAIR, FEATURE];

const fn row(tag: u8, name: &'static str, form: Form, size: usize, presence: Presence) -> Row {
    Row {
        tag,
        name,
        form,
        size,
        presence,
    }
}

const TOPIC: Shape = Shape {
    name: "Topic",
    rows: &[
        row(1, "name", String, 255, Required),
        row(2, "topic_id", Id, 16, Required),
        row(3, "partitions", I32, 4, Required),
        row(4, "replication_factor", I16, 2, Required),
    ],
};

const PARTITION: Shape = Shape {
    name: "Partition",
    rows: &[
        row(1, "topic", String, 255, Required),
        row(2, "partition", I32, 4, Required),
        row(3, "leader", U64, 8, Required),
        row(4, "replicas", NodeSet, 64, Required),
        row(5, "isr", Nodes, 64, Required),
        row(6, "leader_epoch", I32, 4, Required),
        row(7, "adding_replicas", Nodes, 64, Required),
        row(8, "removing_replicas", Nodes, 64, Required),
        row(9, "directories", Ids, 64, Required),
        row(10, "partition_epoch", I32, 4, Required),
    ],
};

const BROKER_REGISTRATION: Shape = Shape {
    name: "BrokerRegistration",
    rows: &[
        row(1, "node_id", U64, 8, Required),
        row(2, "broker_epoch", I64, 8, Required),
        row(3, "incarnation_id", Id, 16, Required),
        row(4, "host", String, 255, Required),
        row(5, "port", U16, 2, Required),
        row(6, "rack", String, 255, Optional),
        row(7, "endpoints", Nested(&ENDPOINT), 0, UpTo(16)),
        row(8, "log_dirs", Ids, 64, Required),
        row(9, "fenced", Bool, 2, Required),
        row(10, "in_controlled_shutdown", Bool, 2, Required),
        row(11, "cordoned_log_dirs", Ids, 64, Optional),
        row(12, "features", Nested(&FEATURE), 0, UpTo(64)),
    ],
};

const DELETE_TOPIC: Shape = Shape {
    name: "DeleteTopic",
    rows: &[row(1, "name", String, 255, Required)],
};

const TOPIC_CONFIG: Shape = Shape {
    name: "TopicConfig",
    rows: &[
        row(1, "topic", String, 255, Required),
        row(2, "overrides", Nested(&PAIR), 0, UpTo(64)),
    ],
};

const BROKER_CONFIG: Shape = Shape {
    name: "BrokerConfig",
    rows: &[
        row(1, "node_id", U64, 8, Required),
        row(2, "config_name", String, 255, Required),
        row(3, "config_value", String, 255, Optional),
    ],
};

const CLIENT_QUOTA: Shape = Shape {
    name: "ClientQuota",
    rows: &[
        row(1, "entity", Nested(&ENTITY), 0, UpTo(8)),
        row(2, "config_key", String, 255, Required),
        row(3, "config_value", F64, 8, Optional),
    ],
};

const PRODUCER_IDS: Shape = Shape {
    name: "ProducerIds",
    rows: &[
        row(1, "broker_id", U64, 8, Required),
        row(2, "broker_epoch", I64, 8, Required),
        row(3, "next_producer_id", I64, 8, Required),
    ],
};

const UNREGISTER_BROKER: Shape = Shape {
    name: "UnregisterBroker",
    rows: &[
        row(1, "node_id", U64, 8, Required),
        row(2, "broker_epoch", I64, 8, Required),
    ],
};

const KRAFT_VERSION: Shape = Shape {
    name: "KRaftVersion",
    rows: &[row(1, "kraft_version", U16, 2, Required)],
};

const FEATURE_LEVEL: Shape = Shape {
    name: "FeatureLevel",
    rows: &[
        row(1, "name", String, 255, Required),
        row(2, "level", I16, 2, Required),
    ],
};

const CLIENT_METRICS_CONFIG: Shape = Shape {
    name: "ClientMetricsConfig",
    rows: &[
        row(1, "name", String, 255, Required),
        row(2, "configs", Nested(&PAIR), 0, UpTo(64)),
    ],
};

const FEATURES_EPOCH: Shape = Shape {
    name: "FeaturesEpoch",
    rows: &[row(1, "epoch", I64, 8, Required)],
};

const PARTITION_DIR_ASSIGNMENT: Shape = Shape {
    name: "PartitionDirAssignment",
    rows: &[
        row(1, "topic", String, 255, Required),
        row(2, "partition", I32, 4, Required),
        row(3, "replica", U64, 8, Required),
        row(4, "directory", Id, 16, Required),
    ],
};

const PARTITION_OFFSET_ADVANCE: Shape = Shape {
    name: "PartitionOffsetAdvance",
    rows: &[
        row(1, "topic", String, 255, Required),
        row(2, "partition", I32, 4, Required),
        row(3, "count", I64, 8, Required),
    ],
};

const GROUP_CONFIG: Shape = Shape {
    name: "GroupConfig",
    rows: &[
        row(1, "group_id", String, 255, Required),
        row(2, "configs", Nested(&PAIR), 0, UpTo(64)),
    ],
};

const CONTROLLER_REGISTRATION: Shape = Shape {
    name: "ControllerRegistration",
    rows: &[
        row(1, "node_id", U64, 8, Required),
        row(2, "incarnation_id", Id, 16, Required),
        row(3, "zk_migration_ready", Bool, 2, Required),
        row(4, "endpoints", Nested(&ENDPOINT), 0, UpTo(16)),
        row(5, "features", Nested(&FEATURE), 0, UpTo(64)),
    ],
};

const TOPIC_FREEZE: Shape = Shape {
    name: "TopicFreeze",
    rows: &[
        row(1, "scope", String, 255, Required),
        row(2, "pattern_type", Enum, 2, Required),
        row(3, "frozen", Bool, 2, Required),
        row(4, "reason", String, 255, Required),
        row(5, "set_by", String, 255, Required),
        row(6, "set_at_ms", I64, 8, Required),
        row(7, "proposal_id", Id, 16, Required),
        row(8, "key_id", String, 255, Required),
        row(9, "signature", Bytes, 512, Required),
    ],
};

const BREAK_GLASS_PROPOSAL: Shape = Shape {
    name: "BreakGlassProposal",
    rows: &[
        row(1, "proposal_id", Id, 16, Required),
        row(2, "action", Enum, 7, Required),
        row(3, "target", String, 255, Required),
        row(4, "proposer", String, 255, Required),
        row(5, "reason", String, 255, Required),
        row(6, "created_at_ms", I64, 8, Required),
        row(7, "expires_at_ms", I64, 8, Required),
        row(8, "approvals", Nested(&APPROVAL), 0, UpTo(16)),
        row(9, "consumed_at_ms", I64, 8, Required),
        row(10, "withdrawn", Bool, 2, Required),
    ],
};

const DELETE_BREAK_GLASS_PROPOSAL: Shape = Shape {
    name: "DeleteBreakGlassProposal",
    rows: &[row(1, "proposal_id", Id, 16, Required)],
};

const PARTITION_ELR: Shape = Shape {
    name: "PartitionElr",
    rows: &[
        row(1, "topic", String, 255, Required),
        row(2, "partition", I32, 4, Required),
        row(3, "eligible_leader_replicas", Nodes, 64, Required),
        row(4, "last_known_elr", Nodes, 64, Required),
    ],
};

const PARTITION_RECOVERY: Shape = Shape {
    name: "PartitionRecovery",
    rows: &[
        row(1, "topic", String, 255, Required),
        row(2, "partition", I32, 4, Required),
        row(3, "state", Enum, 2, Required),
    ],
};

const PARTITION_UPDATE: Shape = Shape {
    name: "PartitionUpdate",
    rows: &[
        row(1, "partition", Nested(&PARTITION), 0, Required),
        row(2, "eligible_leader_replicas", Nodes, 64, Optional),
        row(3, "last_known_elr", Nodes, 64, Optional),
        row(4, "recovery_state", Enum, 2, Optional),
    ],
};

const BROKER_REGISTRATION_CHANGE: Shape = Shape {
    name: "BrokerRegistrationChange",
    rows: &[
        row(1, "node_id", U64, 8, Required),
        row(2, "broker_epoch", I64, 8, Required),
        row(3, "fenced", Enum, 3, Required),
        row(4, "in_controlled_shutdown", Bool, 2, Required),
        row(5, "log_dirs", Ids, 64, Required),
        row(6, "cordoned_log_dirs", Ids, 64, Optional),
    ],
};

const UNREGISTER_CONTROLLER: Shape = Shape {
    name: "UnregisterController",
    rows: &[row(1, "node_id", U64, 8, Required)],
};

const LOG_OFFSET: Shape = Shape {
    name: "LogOffset",
    rows: &[row(1, "offset", Offset, 8, Required)],
};

const ENDPOINT: Shape = Shape {
    name: "Endpoint",
    rows: &[
        row(1, "name", String, 255, Required),
        row(2, "host", String, 255, Required),
        row(3, "port", U16, 2, Required),
        row(4, "protocol", Enum, 4, Required),
    ],
};

const APPROVAL: Shape = Shape {
    name: "Approval",
    rows: &[
        row(1, "principal", String, 255, Required),
        row(2, "approved_at_ms", I64, 8, Required),
        row(3, "key_id", String, 255, Required),
        row(4, "signature", Bytes, 512, Required),
    ],
};

const ENTITY: Shape = Shape {
    name: "Entity",
    rows: &[
        row(1, "entity_type", String, 255, Required),
        row(2, "entity_name", String, 255, Optional),
    ],
};

const PAIR: Shape = Shape {
    name: "Pair",
    rows: &[
        row(1, "key", Key, 255, Required),
        row(2, "value", String, 255, Required),
    ],
};

const FEATURE: Shape = Shape {
    name: "Feature",
    rows: &[
        row(1, "name", Key, 255, Required),
        row(2, "low", I16, 2, Required),
        row(3, "high", I16, 2, Required),
    ],
};
