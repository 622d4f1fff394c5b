//! The reference's verdicts as 01's numbers, and the numbers that it has none for.

use krabka_metadata::{MetadataError, MetadataImage, MetadataRecord};

use crate::names::is_lawful;

pub const ACCEPTED: u8 = 0;
/// The buffer is no image.
pub const NO_IMAGE: u8 = 1;
/// The offset's sum leaves i64.
pub const NO_OFFSET: u8 = 17;
/// The weight afterwards exceeds the capacity.
pub const NO_ROOM: u8 = 18;
/// The log offset given is not above the stored one.
pub const NOT_LATER: u8 = 21;
/// The log offset's record is missing at a snapshot's start, or stands later.
pub const MISPLACED_OFFSET: u8 = 22;
/// The log offset given for a snapshot of the old form is below -1.
pub const OFFSET_TOO_LOW: u8 = 23;
/// A topic's name is unlawful.
pub const UNLAWFUL_NAME: u8 = 24;
/// The number of a short history is past the last.
pub const PAST_THE_LAST: u8 = 26;

/// Validate's number of a record: 24 by the harness's own rule on a topic's
/// name, which the reference does not have, and else what `validate` says.
pub fn judged(image: &MetadataImage, record: &MetadataRecord) -> u8 {
    match record {
        MetadataRecord::V1Topic(topic) if !is_lawful(&topic.name) => UNLAWFUL_NAME,
        _ => verdict(image, record),
    }
}

/// What `validate` says, as 01 numbers it: 0, or 6 to 16.
pub fn verdict(image: &MetadataImage, record: &MetadataRecord) -> u8 {
    match image.validate(record) {
        Ok(()) => ACCEPTED,
        Err(MetadataError::TopicExists(_)) => 6,
        Err(MetadataError::UnknownTopic(_)) => 7,
        Err(MetadataError::InvalidRecord(text)) => invalid_record(record, text),
        Err(MetadataError::EmptyFreezeScope) => 13,
        Err(MetadataError::BreakGlassProposalConsumed(_)) => 14,
        Err(MetadataError::BreakGlassProposalWithdrawn(_)) => 15,
        Err(MetadataError::BreakGlassApprovalsNotAnExtension(_)) => 16,
        Err(error) => panic!("a verdict that 01 does not number: {error}"),
    }
}

/// The kind tells these apart, and the text the two of ProducerIds.
fn invalid_record(record: &MetadataRecord, text: &str) -> u8 {
    match record {
        MetadataRecord::V1BrokerRegistrationChange(_) => 8,
        MetadataRecord::V1UnregisterBroker(_) => 9,
        MetadataRecord::V1UnregisterController(_) => 10,
        MetadataRecord::V1ProducerIds(_) if text.contains("monotonically") => 11,
        MetadataRecord::V1ProducerIds(_) if text.contains("stale broker epoch") => 12,
        _ => panic!("a verdict that 01 does not number: {text}"),
    }
}

/// Whether `apply` would add an offset out of i64, 01's refusal 17. The
/// reference panics or wraps there, as its build has overflow checks or not.
pub fn offset_leaves_i64(image: &MetadataImage, record: &MetadataRecord) -> bool {
    let MetadataRecord::V1PartitionOffsetAdvance(advance) = record else {
        return false;
    };
    let offset = image.partition_next_offset(&advance.topic, advance.partition);
    offset.unwrap_or(0).checked_add(advance.count).is_none()
}
