//! Records in a few words, beside those that the facts have.

use krabka_metadata::{
    BreakGlassApproval, BreakGlassProposalRecord, BrokerRegistrationChangeRecord,
    ControllerRegistrationRecord, FencingChange, LeaderRecoveryState, MetadataRecord, NodeId,
    PartitionUpdateRecord, UnregisterBrokerRecord, UnregisterControllerRecord,
};
use oracle::facts::build::{self, approval, broker, id, nodes, partition};

/// A broker with a log directory, which no other epoch has.
pub fn registration(node: u64, epoch: i64) -> MetadataRecord {
    let mut record = broker(node, epoch);
    record.log_dirs = vec![id(epoch.unsigned_abs())];
    MetadataRecord::V1BrokerRegistration(record)
}

/// A change to these directories, into shutdown, with these cordoned.
pub fn change(
    node: u64,
    epoch: i64,
    fenced: FencingChange,
    log_dirs: &[u64],
    cordoned: Option<&[u64]>,
) -> MetadataRecord {
    let ids = |numbers: &[u64]| numbers.iter().copied().map(id).collect();
    MetadataRecord::V1BrokerRegistrationChange(BrokerRegistrationChangeRecord {
        node_id: NodeId(node),
        broker_epoch: epoch,
        fenced,
        in_controlled_shutdown: !log_dirs.is_empty(),
        log_dirs: ids(log_dirs),
        cordoned_log_dirs: cordoned.map(ids),
    })
}

pub fn unregister(node: u64, epoch: i64) -> MetadataRecord {
    MetadataRecord::V1UnregisterBroker(UnregisterBrokerRecord {
        node_id: NodeId(node),
        broker_epoch: epoch,
    })
}

pub fn controller(node: u64, incarnation: u64, feature: Option<&str>) -> MetadataRecord {
    let feature = feature.map(|name| (name.to_owned(), (0, 1)));
    MetadataRecord::V1ControllerRegistration(ControllerRegistrationRecord {
        features: feature.into_iter().collect(),
        ..build::controller(node, incarnation)
    })
}

pub fn unregister_controller(node: u64) -> MetadataRecord {
    MetadataRecord::V1UnregisterController(UnregisterControllerRecord {
        node_id: NodeId(node),
    })
}

/// Partition 0 of "p" with one replica, and what the update says beside it.
pub fn update(
    eligible: Option<&[u64]>,
    last_known: Option<&[u64]>,
    state: Option<LeaderRecoveryState>,
) -> MetadataRecord {
    MetadataRecord::V1PartitionUpdate(PartitionUpdateRecord {
        partition: partition("p", 0, &[7]),
        eligible_leader_replicas: eligible.map(nodes),
        last_known_elr: last_known.map(nodes),
        recovery_state: state,
    })
}

/// A proposal approved by these principals; consumed at 0 means not consumed.
pub fn proposal(
    number: u64,
    principals: &[&str],
    consumed: i64,
    withdrawn: bool,
) -> MetadataRecord {
    let signed = |principal: &&str| BreakGlassApproval {
        signature: vec![1],
        ..approval(principal)
    };
    MetadataRecord::V1BreakGlassProposal(BreakGlassProposalRecord {
        target: "p".to_owned(),
        approvals: principals.iter().map(signed).collect(),
        consumed_at_ms: consumed,
        withdrawn,
        ..build::proposal(id(number))
    })
}

pub fn delete_proposal(number: u64) -> MetadataRecord {
    MetadataRecord::V1DeleteBreakGlassProposal(id(number))
}
