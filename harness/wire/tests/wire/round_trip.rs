//! Encoding, reading and decoding agree.

use krabka_metadata::MetadataRecord::*;
use krabka_metadata::voters::VoterSet;
use krabka_metadata::*;
use krabka_security::{KafkaPrincipal, SaslMechanism};
use wire::table::KINDS;
use wire::{LOG_OFFSET, PAST_THE_END, decode, encode, read};

use crate::runs::{field, longest, record};
use crate::samples;

#[test]
fn the_scope_papers_example() {
    let bytes = [11, 0, 9, 1, 0, 1, 0x61, 2, 0, 2, 0, 1];
    assert_eq!(read(&bytes), Ok(12));
    assert_eq!(read(&[]), Err(PAST_THE_END));
    let level = FeatureLevelRecord {
        name: "a".into(),
        level: 1,
    };
    assert_eq!(encode(&V1FeatureLevel(level)).unwrap(), bytes);
}

#[test]
fn filled_records_have_the_bytes_written_by_hand() {
    for (record, bytes) in samples::filled() {
        assert_eq!(encode(&record).unwrap(), bytes, "{record:?}");
        there_and_back(&record);
    }
}

#[test]
fn emptied_records_come_back() {
    for record in samples::emptied() {
        there_and_back(&record);
    }
}

/// A record's bytes are read whole and decode to the record, also where other
/// bytes come after them.
fn there_and_back(record: &MetadataRecord) {
    let mut bytes = encode(record).unwrap();
    let length = bytes.len();
    assert_eq!(read(&bytes), Ok(length));
    assert_eq!(decode(&bytes), Ok((record.clone(), length)));
    bytes.extend([0xFF; 9]);
    assert_eq!(read(&bytes), Ok(length));
    assert_eq!(decode(&bytes), Ok((record.clone(), length)));
}

#[test]
fn records_at_every_limit_come_back() {
    let bodies = KINDS.iter().map(|shape| longest(shape.rows, 0));
    let mut most = 0;
    for (kind, body) in (1..LOG_OFFSET).zip(bodies) {
        let bytes = field(kind, &body);
        let (record, used) = decode(&bytes).unwrap();
        assert_eq!(used, bytes.len());
        assert_eq!(encode(&record).unwrap(), bytes);
        most = most.max(body.len());
    }
    assert_eq!(most, 33_474);
}

#[test]
fn a_double_keeps_its_bits() {
    let patterns = [
        0,
        1,
        0x8000_0000_0000_0000,
        0x7FF0_0000_0000_0000,
        0x7FF0_0000_0000_0001,
        0x7FF8_0000_0000_0000,
        0xFFF4_0000_0000_0002,
        u64::MAX,
    ];
    for bits in patterns {
        let bytes = record(7, &[field(2, "k"), field(3, bits.to_be_bytes())]);
        let (quota, _) = decode(&bytes).unwrap();
        assert_eq!(encode(&quota).unwrap(), bytes);
        let V1ClientQuota(quota) = quota else {
            panic!("{quota:?}")
        };
        assert_eq!(quota.config_value.map(f64::to_bits), Some(bits));
    }
}

/// Holds the byte of the field `tag` in each of the records to its place.
fn are_counted(records: impl IntoIterator<Item = MetadataRecord>, tag: u8) {
    for (place, record) in (0..).zip(records) {
        let bytes = encode(&record).unwrap();
        let mut fields = wire::Run::new(&bytes[wire::HEADER..]).map(Result::unwrap);
        let (_, value) = fields.find(|field| field.0 == tag).unwrap();
        assert_eq!(value, [place], "{record:?}");
        there_and_back(&record);
    }
}

#[test]
fn actions_and_patterns_count_from_zero() {
    use BreakGlassAction::*;
    let actions = [
        ThawTopicFreeze,
        UncleanElectLeaders,
        UncleanRecovery,
        UnregisterBroker,
        CancelReassignment,
        DeleteTopic,
        DeleteRecords,
    ];
    let proposals = actions.map(|action| {
        let record = samples::filled()[18].0.clone();
        let V1BreakGlassProposal(record) = record else {
            panic!("{record:?}")
        };
        V1BreakGlassProposal(BreakGlassProposalRecord { action, ..record })
    });
    are_counted(proposals, 2);
    let freezes = [PatternType::Literal, PatternType::Prefixed].map(|pattern_type| {
        let record = samples::filled()[17].0.clone();
        let V1TopicFreeze(record) = record else {
            panic!("{record:?}")
        };
        V1TopicFreeze(TopicFreezeRecord {
            pattern_type,
            ..record
        })
    });
    are_counted(freezes, 2);
}

#[test]
fn states_and_fencing_changes_count_from_zero() {
    use LeaderRecoveryState::*;
    let recoveries = [Recovered, Recovering].map(|state| {
        V1PartitionRecovery(PartitionRecoveryRecord {
            topic: "t".into(),
            partition: 0,
            state,
        })
    });
    are_counted(recoveries, 3);
    let updates = [Recovered, Recovering].map(|state| {
        V1PartitionUpdate(PartitionUpdateRecord {
            partition: samples::partition_value(),
            eligible_leader_replicas: None,
            last_known_elr: Some(Vec::new()),
            recovery_state: Some(state),
        })
    });
    are_counted(updates, 4);
    use FencingChange::{Fence, None as Unchanged, Unfence};
    let changes = [Unfence, Unchanged, Fence].map(|fenced| {
        V1BrokerRegistrationChange(BrokerRegistrationChangeRecord {
            fenced,
            ..BrokerRegistrationChangeRecord::no_change(NodeId(1), 2)
        })
    });
    are_counted(changes, 3);
}

#[test]
fn protocols_count_from_zero() {
    use ListenerProtocol::*;
    for (place, protocol) in (0..).zip([Plaintext, Ssl, SaslPlaintext, SaslSsl]) {
        let registration = V1ControllerRegistration(ControllerRegistrationRecord {
            node_id: NodeId(1),
            incarnation_id: uuid::Uuid::nil(),
            zk_migration_ready: false,
            endpoints: vec![BrokerEndpoint {
                name: "n".into(),
                host: "h".into(),
                port: 1,
                protocol,
            }],
            features: [].into(),
        });
        assert_eq!(encode(&registration).unwrap().last(), Some(&place));
        there_and_back(&registration);
    }
}

#[test]
fn the_records_left_out_have_no_bytes() {
    let mechanism = SaslMechanism::ScramSha256;
    let [user, token_id, name] = ["u"; 3].map(String::from);
    let owner = KafkaPrincipal {
        principal_type: "User".into(),
        name,
    };
    let left_out = [
        V1AccessControlEntry(access_control_entry()),
        V1DeleteAccessControlEntry(AclEntryFilter::default()),
        V1DeleteScramCredential(DeleteScramCredentialRecord {
            user: user.clone(),
            mechanism,
        }),
        V1ScramCredential(ScramCredentialRecord {
            user,
            mechanism,
            salt: Vec::new(),
            stored_key: Vec::new(),
            server_key: Vec::new(),
            iterations: 1,
        }),
        V1DeleteDelegationToken(DeleteDelegationTokenRecord { token_id }),
        V1DelegationToken(delegation_token(owner)),
        V1Voters(VotersRecord { voters: VoterSet }),
    ];
    for record in left_out {
        assert_eq!(encode(&record), None, "{record:?}");
    }
}

fn access_control_entry() -> AclEntry {
    AclEntry {
        resource_type: ResourceType::Topic,
        resource_name: "t".into(),
        pattern_type: PatternType::Literal,
        principal: "User:u".into(),
        host: "*".into(),
        operation: AclOperation::Read,
        permission_type: PermissionType::Allow,
    }
}

fn delegation_token(owner: KafkaPrincipal) -> DelegationTokenRecord {
    DelegationTokenRecord {
        token_id: "t".into(),
        requester: owner.clone(),
        owner,
        issue_timestamp_ms: 1,
        expiry_timestamp_ms: 2,
        max_timestamp_ms: 3,
        renewers: Vec::new(),
    }
}
