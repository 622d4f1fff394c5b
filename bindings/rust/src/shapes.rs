//! What the records of each kind have, field by field, by the names of `docs/FORMAT.md`.
//!
//! Each is a plain struct: fill it in and [`record`](Topic::record) gives the
//! [`Record`], or the refusal of the first faulty field; of a record that
//! is there, [`of`](Topic::of) gives the struct.
//!
//! ```
//! use jeghatuf::{Kind, Refusal};
//! use jeghatuf::shapes::{FeatureLevel, Topic};
//!
//! let level = FeatureLevel { name: "a".into(), level: 1 };
//! let record = level.record()?;
//! assert_eq!(record.as_bytes(), [11, 0, 9, 1, 0, 1, b'a', 2, 0, 2, 0, 1]);
//! assert_eq!(record.kind(), Kind::FeatureLevel);
//! assert_eq!(FeatureLevel::of(&record), Some(level));
//! assert_eq!(Topic::of(&record), None);
//!
//! let long = FeatureLevel { name: "a".repeat(256), level: 1 };
//! assert_eq!(long.record(), Err(Refusal::OverALimit));
//! # Ok::<(), Refusal>(())
//! ```

use std::collections::BTreeMap;

use crate::field::{Lists, Source};
use crate::form::{Form, Shape};
use crate::kind::{Action, Fencing, Kind, PatternType, Protocol, Recovery};
use crate::record::Record;
use crate::refusal::Refusal;

/// An id of a topic, a directory, an incarnation or a proposal.
pub type Id = [u8; 16];

/// A shape: of each field its tag, its name, its form and what it says.
macro_rules! shape {
    ($(#[$about:meta])* $shape:ident { $($tag:literal $field:ident: $form:ty, $says:literal;)* }) => {
        $(#[$about])*
        #[derive(Clone, Debug, PartialEq)]
        pub struct $shape {
            $(
                #[doc = $says]
                pub $field: $form,
            )*
        }

        impl Shape for $shape {
            fn lists(&self) -> Lists {
                let mut lists = Lists::default();
                $(self.$field.put($tag, &mut lists);)*
                lists
            }

            fn of(source: Source<'_>) -> Self {
                $shape { $($field: Form::take(source.values($tag)),)* }
            }
        }
    };
}

/// The shapes that are kinds of record.
macro_rules! kinds {
    ($($kind:ident)*) => {
        /// A record's fields, by its kind.
        ///
        /// ```
        /// use jeghatuf::{Fields, Record, Refusal};
        ///
        /// let record = Record::read(&[11, 0, 9, 1, 0, 1, b'a', 2, 0, 2, 0, 1])?;
        /// match record.fields() {
        ///     Fields::FeatureLevel(level) => assert_eq!((&*level.name, level.level), ("a", 1)),
        ///     other => panic!("{other:?}"),
        /// }
        /// # Ok::<(), Refusal>(())
        /// ```
        #[derive(Clone, Debug, PartialEq)]
        pub enum Fields {
            $(
                #[doc = concat!("Of [`Kind::", stringify!($kind), "`].")]
                $kind($kind),
            )*
        }

        impl Fields {
            /// The kind of their record.
            pub fn kind(&self) -> Kind {
                match self {
                    $(Fields::$kind(_) => Kind::$kind,)*
                }
            }

            /// The record with these fields.
            pub fn record(&self) -> Result<Record, Refusal> {
                match self {
                    $(Fields::$kind(fields) => fields.record(),)*
                }
            }

            pub(crate) fn of(record: &Record) -> Self {
                let source = Source::Record(record.as_bytes());
                match record.kind() {
                    $(Kind::$kind => Fields::$kind(Shape::of(source)),)*
                }
            }
        }

        $(
            impl $kind {
                /// The record with these fields.
                pub fn record(&self) -> Result<Record, Refusal> {
                    Record::write(Kind::$kind, &self.lists())
                }

                /// The fields of a record of this kind.
                pub fn of(record: &Record) -> Option<Self> {
                    let is = record.kind() == Kind::$kind;
                    is.then(|| Shape::of(Source::Record(record.as_bytes())))
                }
            }

            impl From<$kind> for Fields {
                fn from(fields: $kind) -> Self {
                    Fields::$kind(fields)
                }
            }
        )*
    };
}

kinds! {
    Topic Partition BrokerRegistration DeleteTopic TopicConfig BrokerConfig ClientQuota ProducerIds
    UnregisterBroker KRaftVersion FeatureLevel ClientMetricsConfig FeaturesEpoch
    PartitionDirAssignment PartitionOffsetAdvance GroupConfig ControllerRegistration TopicFreeze
    BreakGlassProposal DeleteBreakGlassProposal PartitionElr PartitionRecovery PartitionUpdate
    BrokerRegistrationChange UnregisterController LogOffset
}

shape! {
    /// A topic.
    Topic {
        1 name: String, "Its name.";
        2 topic_id: Id, "Its id.";
        3 partitions: i32, "How many partitions it has. An image counts its own.";
        4 replication_factor: i16, "How many replicas a partition of it has.";
    }
}

shape! {
    /// A partition of a topic.
    Partition {
        1 topic: String, "The topic's name.";
        2 partition: i32, "Its number.";
        3 leader: u64, "The node that leads it.";
        4 replicas: Vec<u64>, "Its nodes, none twice.";
        5 isr: Vec<u64>, "Those that are in sync.";
        6 leader_epoch: i32, "The leader's epoch.";
        7 adding_replicas: Vec<u64>, "Those that are being added.";
        8 removing_replicas: Vec<u64>, "Those that are being removed.";
        9 directories: Vec<Id>, "The directory of each replica.";
        10 partition_epoch: i32, "Its own epoch.";
    }
}

shape! {
    /// A broker.
    BrokerRegistration {
        1 node_id: u64, "Its node.";
        2 broker_epoch: i64, "Its epoch.";
        3 incarnation_id: Id, "The id of this run of it.";
        4 host: String, "Its host.";
        5 port: u16, "Its port.";
        6 rack: Option<String>, "Its rack.";
        7 endpoints: Vec<Endpoint>, "Where it listens.";
        8 log_dirs: Vec<Id>, "Its log directories.";
        9 fenced: bool, "Whether it is fenced.";
        10 in_controlled_shutdown: bool, "Whether it is shutting down.";
        11 cordoned_log_dirs: Option<Vec<Id>>, "The log directories that take no more.";
        12 features: BTreeMap<String, Levels>, "The levels that it supports, by feature.";
    }
}

shape! {
    /// The end of a topic.
    DeleteTopic {
        1 name: String, "The topic's name.";
    }
}

shape! {
    /// The configs of a topic; none of them end the topic's.
    TopicConfig {
        1 topic: String, "The topic's name.";
        2 overrides: BTreeMap<String, String>, "The configs.";
    }
}

shape! {
    /// A config of a broker, or its end.
    BrokerConfig {
        1 node_id: u64, "The broker's node, or [`DEFAULT_NODE`](crate::DEFAULT_NODE).";
        2 config_name: String, "The config's name.";
        3 config_value: Option<String>, "Its value; none ends it.";
    }
}

shape! {
    /// A quota of clients, or its end.
    ClientQuota {
        1 entity: Vec<Entity>, "Whose quota it is.";
        2 config_key: String, "What it bounds.";
        3 config_value: Option<f64>, "Its value; none ends it.";
    }
}

shape! {
    /// How far the producer ids are given out.
    ProducerIds {
        1 broker_id: u64, "The broker that has the last block.";
        2 broker_epoch: i64, "The broker's epoch.";
        3 next_producer_id: i64, "The next id.";
    }
}

shape! {
    /// The end of a broker.
    UnregisterBroker {
        1 node_id: u64, "The broker's node.";
        2 broker_epoch: i64, "The broker's epoch.";
    }
}

shape! {
    /// The kraft version.
    KRaftVersion {
        1 kraft_version: u16, "The version.";
    }
}

shape! {
    /// A feature's level.
    FeatureLevel {
        1 name: String, "The feature's name.";
        2 level: i16, "Its level; 0 ends it.";
    }
}

shape! {
    /// The configs of a subscription to client metrics.
    ClientMetricsConfig {
        1 name: String, "The subscription's name.";
        2 configs: BTreeMap<String, String>, "The configs.";
    }
}

shape! {
    /// The features epoch.
    FeaturesEpoch {
        1 epoch: i64, "The epoch.";
    }
}

shape! {
    /// The directory of a replica.
    PartitionDirAssignment {
        1 topic: String, "The topic's name.";
        2 partition: i32, "The partition's number.";
        3 replica: u64, "The replica's node.";
        4 directory: Id, "Its directory.";
    }
}

shape! {
    /// An advance of a partition's offset.
    PartitionOffsetAdvance {
        1 topic: String, "The topic's name.";
        2 partition: i32, "The partition's number.";
        3 count: i64, "By how much.";
    }
}

shape! {
    /// The configs of a group.
    GroupConfig {
        1 group_id: String, "The group's id.";
        2 configs: BTreeMap<String, String>, "The configs.";
    }
}

shape! {
    /// A controller.
    ControllerRegistration {
        1 node_id: u64, "Its node.";
        2 incarnation_id: Id, "The id of this run of it.";
        3 zk_migration_ready: bool, "Whether it is ready to migrate.";
        4 endpoints: Vec<Endpoint>, "Where it listens.";
        5 features: BTreeMap<String, Levels>, "The levels that it supports, by feature.";
    }
}

shape! {
    /// A freeze of topics, or its end.
    TopicFreeze {
        1 scope: String, "The topics' name, or the beginning of their names.";
        2 pattern_type: PatternType, "Which of the two.";
        3 frozen: bool, "Whether they are frozen.";
        4 reason: String, "Why.";
        5 set_by: String, "By whom.";
        6 set_at_ms: i64, "When.";
        7 proposal_id: Id, "By which proposal.";
        8 key_id: String, "The signature's key.";
        9 signature: Vec<u8>, "The signature.";
    }
}

shape! {
    /// A proposal that others approve.
    BreakGlassProposal {
        1 proposal_id: Id, "Its id.";
        2 action: Action, "What it is to do.";
        3 target: String, "To what.";
        4 proposer: String, "Who proposes it.";
        5 reason: String, "Why.";
        6 created_at_ms: i64, "Since when it stands.";
        7 expires_at_ms: i64, "Until when.";
        8 approvals: Vec<Approval>, "Who approved it.";
        9 consumed_at_ms: i64, "When it was done; 0 where it was not.";
        10 withdrawn: bool, "Whether it was withdrawn.";
    }
}

shape! {
    /// The end of a proposal.
    DeleteBreakGlassProposal {
        1 proposal_id: Id, "The proposal's id.";
    }
}

shape! {
    /// A partition's eligible leader replicas; two empty lists end them.
    PartitionElr {
        1 topic: String, "The topic's name.";
        2 partition: i32, "The partition's number.";
        3 eligible_leader_replicas: Vec<u64>, "Those that may lead.";
        4 last_known_elr: Vec<u64>, "Those that last could.";
    }
}

shape! {
    /// Whether a partition's leader is recovering.
    PartitionRecovery {
        1 topic: String, "The topic's name.";
        2 partition: i32, "The partition's number.";
        3 state: Recovery, "Whether it is.";
    }
}

shape! {
    /// A partition, with its eligible leader replicas and its recovery.
    PartitionUpdate {
        1 partition: Partition, "The partition.";
        2 eligible_leader_replicas: Option<Vec<u64>>, "Those that may lead.";
        3 last_known_elr: Option<Vec<u64>>, "Those that last could.";
        4 recovery_state: Option<Recovery>, "Whether its leader is recovering.";
    }
}

shape! {
    /// A change of a broker.
    BrokerRegistrationChange {
        1 node_id: u64, "The broker's node.";
        2 broker_epoch: i64, "The broker's epoch.";
        3 fenced: Fencing, "What becomes of its fence.";
        4 in_controlled_shutdown: bool, "Whether it begins to shut down.";
        5 log_dirs: Vec<Id>, "Its log directories; none leave the old ones.";
        6 cordoned_log_dirs: Option<Vec<Id>>, "The log directories that take no more; none leave the old ones.";
    }
}

shape! {
    /// The end of a controller.
    UnregisterController {
        1 node_id: u64, "The controller's node.";
    }
}

shape! {
    /// Where in the log an image stands.
    LogOffset {
        1 offset: i64, "The offset of the last record applied, -1 where there is none.";
    }
}

shape! {
    /// Where a broker or a controller listens.
    Endpoint {
        1 name: String, "The listener's name.";
        2 host: String, "Its host.";
        3 port: u16, "Its port.";
        4 protocol: Protocol, "Its protocol.";
    }
}

shape! {
    /// An approval of a proposal.
    Approval {
        1 principal: String, "Who approves.";
        2 approved_at_ms: i64, "When.";
        3 key_id: String, "The signature's key.";
        4 signature: Vec<u8>, "The signature.";
    }
}

shape! {
    /// One of those whose quota it is.
    Entity {
        1 entity_type: String, "What it is: a user, a client.";
        2 entity_name: Option<String>, "Its name; none is the default.";
    }
}

/// The levels of a feature that a node supports.
#[derive(Clone, Copy, Debug, PartialEq, Eq, Hash)]
pub struct Levels {
    /// The lowest.
    pub low: i16,
    /// The highest.
    pub high: i16,
}
