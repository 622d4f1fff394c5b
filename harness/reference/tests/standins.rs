//! The stand-ins do what the reference's answers need of them.

use krabka_metadata::MetadataError;
use uuid::Uuid;

#[test]
fn errors_have_their_texts() {
    let id = Uuid::from_u64_pair(1, 0x2A);
    let errors = [
        MetadataError::UnknownTopic("p".to_owned()),
        MetadataError::InvalidPartition {
            topic: "p".to_owned(),
            partition: 3,
        },
        MetadataError::InvalidRecord("text"),
        MetadataError::EmptyFreezeScope,
        MetadataError::BreakGlassProposalWithdrawn(id),
    ];
    let texts = [
        "unknown topic 'p'",
        "invalid partition 3 on topic 'p'",
        "invalid record: text",
        "topic freeze scope is empty",
        "break-glass proposal 00000000-0000-0001-0000-00000000002a is withdrawn",
    ];
    assert_eq!(errors.map(|error| error.to_string()), texts);
}

#[test]
fn ids_go_by_their_bytes() {
    let id = Uuid::from_u64_pair(1, u64::MAX);
    assert_eq!(id.as_u64_pair(), (1, u64::MAX));
    assert_eq!(Uuid::from_bytes(*id.as_bytes()), id);
    assert!(Uuid::nil() < id && id < Uuid::from_u64_pair(2, 0));
}
