//! The numbers that have names: the kinds of record, of throttle, and of the fields that
//! choose.

/// An enumeration whose numbers count up, each in one byte.
macro_rules! numbered {
    ($(#[$about:meta])* $enum:ident { $($name:ident = $number:literal, $says:literal;)* }) => {
        $(#[$about])*
        #[derive(Clone, Copy, Debug, PartialEq, Eq, PartialOrd, Ord, Hash)]
        #[repr(u8)]
        pub enum $enum {
            $(
                #[doc = $says]
                $name = $number,
            )*
        }

        impl $enum {
            /// All of them, by their numbers.
            pub const ALL: &[$enum] = &[$($enum::$name),*];

            /// Its number.
            pub const fn number(self) -> u8 {
                self as u8
            }

            /// The one of a number.
            pub const fn from_number(number: u8) -> Option<Self> {
                match number {
                    $($number => Some($enum::$name),)*
                    _ => None,
                }
            }
        }
    };
}

numbered! {
    /// The kinds of record: a record's first byte.
    ///
    /// ```
    /// use jeghatuf::Kind;
    ///
    /// assert_eq!(Kind::LogOffset.number(), 26);
    /// assert_eq!(Kind::from_number(1), Some(Kind::Topic));
    /// assert_eq!(Kind::from_number(27), None);
    /// ```
    Kind {
        Topic = 1, "A topic.";
        Partition = 2, "A partition of a topic.";
        BrokerRegistration = 3, "A broker.";
        DeleteTopic = 4, "The end of a topic.";
        TopicConfig = 5, "The configs of a topic.";
        BrokerConfig = 6, "A config of a broker.";
        ClientQuota = 7, "A quota of clients.";
        ProducerIds = 8, "How far the producer ids are given out.";
        UnregisterBroker = 9, "The end of a broker.";
        KRaftVersion = 10, "The kraft version.";
        FeatureLevel = 11, "A feature's level.";
        ClientMetricsConfig = 12, "The configs of a subscription to client metrics.";
        FeaturesEpoch = 13, "The features epoch.";
        PartitionDirAssignment = 14, "The directory of a replica.";
        PartitionOffsetAdvance = 15, "An advance of a partition's offset.";
        GroupConfig = 16, "The configs of a group.";
        ControllerRegistration = 17, "A controller.";
        TopicFreeze = 18, "A freeze of topics, or its end.";
        BreakGlassProposal = 19, "A proposal that others approve.";
        DeleteBreakGlassProposal = 20, "The end of a proposal.";
        PartitionElr = 21, "A partition's eligible leader replicas.";
        PartitionRecovery = 22, "Whether a partition's leader is recovering.";
        PartitionUpdate = 23, "A partition, with its eligible leader replicas and its recovery.";
        BrokerRegistrationChange = 24, "A change of a broker.";
        UnregisterController = 25, "The end of a controller.";
        LogOffset = 26, "Where in the log an image stands: the start of a snapshot, and no record of the log.";
    }
}

numbered! {
    /// The throttles of a broker.
    ThrottleKind {
        Leader = 0, "As a leader.";
        Follower = 1, "As a follower.";
        AlterLogDirs = 2, "Between its log directories.";
    }
}

numbered! {
    /// What a freeze's scope is.
    PatternType {
        Literal = 0, "A topic's name.";
        Prefixed = 1, "The beginning of topics' names.";
    }
}

numbered! {
    /// What a proposal is to do.
    Action {
        ThawTopicFreeze = 0, "End a freeze.";
        UncleanElectLeaders = 1, "Elect leaders that are not in sync.";
        UncleanRecovery = 2, "Recover with loss.";
        UnregisterBroker = 3, "Unregister a broker.";
        CancelReassignment = 4, "Cancel a reassignment.";
        DeleteTopic = 5, "Delete a topic.";
        DeleteRecords = 6, "Delete records.";
    }
}

numbered! {
    /// Whether a partition's leader is recovering.
    Recovery {
        Recovered = 0, "It is not.";
        Recovering = 1, "It is.";
    }
}

numbered! {
    /// What a broker's change does to its fence.
    Fencing {
        Unfence = 0, "Takes it down.";
        None = 1, "Leaves it.";
        Fence = 2, "Puts it up.";
    }
}

numbered! {
    /// The protocol of an endpoint.
    Protocol {
        Plaintext = 0, "Plain.";
        Ssl = 1, "Over TLS.";
        SaslPlaintext = 2, "With SASL.";
        SaslSsl = 3, "With SASL, over TLS.";
    }
}
