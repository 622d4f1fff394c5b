//! Enumerations in declaration order: the byte of a value is its place.

use krabka_metadata::*;

pub const PROTOCOLS: [ListenerProtocol; 4] = [
    ListenerProtocol::Plaintext,
    ListenerProtocol::Ssl,
    ListenerProtocol::SaslPlaintext,
    ListenerProtocol::SaslSsl,
];

pub const PATTERN_TYPES: [PatternType; 2] = [PatternType::Literal, PatternType::Prefixed];

pub const ACTIONS: [BreakGlassAction; 7] = [
    BreakGlassAction::ThawTopicFreeze,
    BreakGlassAction::UncleanElectLeaders,
    BreakGlassAction::UncleanRecovery,
    BreakGlassAction::UnregisterBroker,
    BreakGlassAction::CancelReassignment,
    BreakGlassAction::DeleteTopic,
    BreakGlassAction::DeleteRecords,
];

pub const RECOVERY_STATES: [LeaderRecoveryState; 2] = [
    LeaderRecoveryState::Recovered,
    LeaderRecoveryState::Recovering,
];

pub const FENCING_CHANGES: [FencingChange; 3] = [
    FencingChange::Unfence,
    FencingChange::None,
    FencingChange::Fence,
];

/// A throttle's kind is no field: a lookup asks by its place.
pub const THROTTLE_KINDS: [ThrottleKind; 3] = [
    ThrottleKind::Leader,
    ThrottleKind::Follower,
    ThrottleKind::AlterLogDirs,
];
