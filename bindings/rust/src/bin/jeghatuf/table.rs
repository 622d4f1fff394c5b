//! The shapes of the records, field by field, as docs/FORMAT.md has them. What shows
//! records and what makes them, as text and as JSON, goes by this table alone. It has
//! no limits: those are the library's to judge.

/// What a field's value is.
pub enum Form {
    U16,
    U64,
    I16,
    I32,
    I64,
    F64,
    Id,
    Bool,
    /// A number that stands for one of these names.
    Enum(&'static [&'static str]),
    Text,
    /// A text that is the key of a map's element.
    Key,
    Bytes,
    Nodes,
    /// Nodes of which none comes twice.
    NodeSet,
    Ids,
    Offset,
    Shape(&'static Shape),
}

/// How often a field stands.
#[derive(Clone, Copy, PartialEq, Eq)]
pub enum Presence {
    Required,
    Optional,
    Repeated,
}

pub struct Field {
    pub tag: u8,
    pub name: &'static str,
    pub form: Form,
    pub presence: Presence,
}

/// A kind of record, or what an element of a repeated field has.
pub struct Shape {
    pub name: &'static str,
    pub fields: &'static [Field],
}

impl Shape {
    /// Whether its elements are a map's: they begin with their key.
    pub fn is_map(&self) -> bool {
        matches!(self.fields.first(), Some(field) if matches!(field.form, Form::Key))
    }
}

/// The shape of a kind's number.
pub fn kind(number: u8) -> Option<&'static Shape> {
    KINDS.get(usize::from(number).checked_sub(1)?).copied()
}

pub const PATTERNS: &[&str] = &["literal", "prefixed"];
pub const ACTIONS: &[&str] = &[
    "thaw_topic_freeze",
    "unclean_elect_leaders",
    "unclean_recovery",
    "unregister_broker",
    "cancel_reassignment",
    "delete_topic",
    "delete_records",
];
pub const RECOVERIES: &[&str] = &["recovered", "recovering"];
pub const FENCINGS: &[&str] = &["unfence", "none", "fence"];
pub const PROTOCOLS: &[&str] = &["plaintext", "ssl", "sasl_plaintext", "sasl_ssl"];

macro_rules! shapes {
    ($($shape:ident $name:ident { $($tag:literal $field:ident $form:expr, $presence:ident;)* })*) => {
        $(
            static $shape: Shape = Shape {
                name: stringify!($name),
                fields: &[$(Field {
                    tag: $tag,
                    name: stringify!($field),
                    form: { use Form::*; $form },
                    presence: Presence::$presence,
                },)*],
            };
        )*
    };
}

/// The kinds, from number 1 on.
pub static KINDS: [&Shape; 26] = [
    &TOPIC,
    &PARTITION,
    &BROKER_REGISTRATION,
    &DELETE_TOPIC,
    &TOPIC_CONFIG,
    &BROKER_CONFIG,
    &CLIENT_QUOTA,
    &PRODUCER_IDS,
    &UNREGISTER_BROKER,
    &KRAFT_VERSION,
    &FEATURE_LEVEL,
    &CLIENT_METRICS_CONFIG,
    &FEATURES_EPOCH,
    &PARTITION_DIR_ASSIGNMENT,
    &PARTITION_OFFSET_ADVANCE,
    &GROUP_CONFIG,
    &CONTROLLER_REGISTRATION,
    &TOPIC_FREEZE,
    &BREAK_GLASS_PROPOSAL,
    &DELETE_BREAK_GLASS_PROPOSAL,
    &PARTITION_ELR,
    &PARTITION_RECOVERY,
    &PARTITION_UPDATE,
    &BROKER_REGISTRATION_CHANGE,
    &UNREGISTER_CONTROLLER,
    &LOG_OFFSET,
];

shapes! {
    TOPIC Topic {
        1 name Text, Required;
        2 topic_id Id, Required;
        3 partitions I32, Required;
        4 replication_factor I16, Required;
    }
    PARTITION Partition {
        1 topic Text, Required;
        2 partition I32, Required;
        3 leader U64, Required;
        4 replicas NodeSet, Required;
        5 isr Nodes, Required;
        6 leader_epoch I32, Required;
        7 adding_replicas Nodes, Required;
        8 removing_replicas Nodes, Required;
        9 directories Ids, Required;
        10 partition_epoch I32, Required;
    }
    BROKER_REGISTRATION BrokerRegistration {
        1 node_id U64, Required;
        2 broker_epoch I64, Required;
        3 incarnation_id Id, Required;
        4 host Text, Required;
        5 port U16, Required;
        6 rack Text, Optional;
        7 endpoints Shape(&ENDPOINT), Repeated;
        8 log_dirs Ids, Required;
        9 fenced Bool, Required;
        10 in_controlled_shutdown Bool, Required;
        11 cordoned_log_dirs Ids, Optional;
        12 features Shape(&FEATURE), Repeated;
    }
    DELETE_TOPIC DeleteTopic {
        1 name Text, Required;
    }
    TOPIC_CONFIG TopicConfig {
        1 topic Text, Required;
        2 overrides Shape(&PAIR), Repeated;
    }
    BROKER_CONFIG BrokerConfig {
        1 node_id U64, Required;
        2 config_name Text, Required;
        3 config_value Text, Optional;
    }
    CLIENT_QUOTA ClientQuota {
        1 entity Shape(&ENTITY), Repeated;
        2 config_key Text, Required;
        3 config_value F64, Optional;
    }
    PRODUCER_IDS ProducerIds {
        1 broker_id U64, Required;
        2 broker_epoch I64, Required;
        3 next_producer_id I64, Required;
    }
    UNREGISTER_BROKER UnregisterBroker {
        1 node_id U64, Required;
        2 broker_epoch I64, Required;
    }
    KRAFT_VERSION KRaftVersion {
        1 kraft_version U16, Required;
    }
    FEATURE_LEVEL FeatureLevel {
        1 name Text, Required;
        2 level I16, Required;
    }
    CLIENT_METRICS_CONFIG ClientMetricsConfig {
        1 name Text, Required;
        2 configs Shape(&PAIR), Repeated;
    }
    FEATURES_EPOCH FeaturesEpoch {
        1 epoch I64, Required;
    }
    PARTITION_DIR_ASSIGNMENT PartitionDirAssignment {
        1 topic Text, Required;
        2 partition I32, Required;
        3 replica U64, Required;
        4 directory Id, Required;
    }
    PARTITION_OFFSET_ADVANCE PartitionOffsetAdvance {
        1 topic Text, Required;
        2 partition I32, Required;
        3 count I64, Required;
    }
    GROUP_CONFIG GroupConfig {
        1 group_id Text, Required;
        2 configs Shape(&PAIR), Repeated;
    }
    CONTROLLER_REGISTRATION ControllerRegistration {
        1 node_id U64, Required;
        2 incarnation_id Id, Required;
        3 zk_migration_ready Bool, Required;
        4 endpoints Shape(&ENDPOINT), Repeated;
        5 features Shape(&FEATURE), Repeated;
    }
    TOPIC_FREEZE TopicFreeze {
        1 scope Text, Required;
        2 pattern_type Enum(PATTERNS), Required;
        3 frozen Bool, Required;
        4 reason Text, Required;
        5 set_by Text, Required;
        6 set_at_ms I64, Required;
        7 proposal_id Id, Required;
        8 key_id Text, Required;
        9 signature Bytes, Required;
    }
    BREAK_GLASS_PROPOSAL BreakGlassProposal {
        1 proposal_id Id, Required;
        2 action Enum(ACTIONS), Required;
        3 target Text, Required;
        4 proposer Text, Required;
        5 reason Text, Required;
        6 created_at_ms I64, Required;
        7 expires_at_ms I64, Required;
        8 approvals Shape(&APPROVAL), Repeated;
        9 consumed_at_ms I64, Required;
        10 withdrawn Bool, Required;
    }
    DELETE_BREAK_GLASS_PROPOSAL DeleteBreakGlassProposal {
        1 proposal_id Id, Required;
    }
    PARTITION_ELR PartitionElr {
        1 topic Text, Required;
        2 partition I32, Required;
        3 eligible_leader_replicas Nodes, Required;
        4 last_known_elr Nodes, Required;
    }
    PARTITION_RECOVERY PartitionRecovery {
        1 topic Text, Required;
        2 partition I32, Required;
        3 state Enum(RECOVERIES), Required;
    }
    PARTITION_UPDATE PartitionUpdate {
        1 partition Shape(&PARTITION), Required;
        2 eligible_leader_replicas Nodes, Optional;
        3 last_known_elr Nodes, Optional;
        4 recovery_state Enum(RECOVERIES), Optional;
    }
    BROKER_REGISTRATION_CHANGE BrokerRegistrationChange {
        1 node_id U64, Required;
        2 broker_epoch I64, Required;
        3 fenced Enum(FENCINGS), Required;
        4 in_controlled_shutdown Bool, Required;
        5 log_dirs Ids, Required;
        6 cordoned_log_dirs Ids, Optional;
    }
    UNREGISTER_CONTROLLER UnregisterController {
        1 node_id U64, Required;
    }
    LOG_OFFSET LogOffset {
        1 offset Offset, Required;
    }
    ENDPOINT Endpoint {
        1 name Text, Required;
        2 host Text, Required;
        3 port U16, Required;
        4 protocol Enum(PROTOCOLS), Required;
    }
    APPROVAL Approval {
        1 principal Text, Required;
        2 approved_at_ms I64, Required;
        3 key_id Text, Required;
        4 signature Bytes, Required;
    }
    ENTITY Entity {
        1 entity_type Text, Required;
        2 entity_name Text, Optional;
    }
    PAIR Pair {
        1 key Key, Required;
        2 value Text, Required;
    }
    FEATURE Feature {
        1 name Key, Required;
        2 low I16, Required;
        3 high I16, Required;
    }
}
