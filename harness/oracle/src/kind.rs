//! The kind numbers of 01.

use krabka_metadata::MetadataRecord;

/// The record's kind, 1 to 25; none for the records that 01 leaves out.
pub fn kind(record: &MetadataRecord) -> Option<u8> {
    Some(match record {
        MetadataRecord::V1Topic(_) => 1,
        MetadataRecord::V1Partition(_) => 2,
        MetadataRecord::V1BrokerRegistration(_) => 3,
        MetadataRecord::V1DeleteTopic(_) => 4,
        MetadataRecord::V1TopicConfig(_) => 5,
        MetadataRecord::V1BrokerConfig(_) => 6,
        MetadataRecord::V1ClientQuota(_) => 7,
        MetadataRecord::V1ProducerIds(_) => 8,
        MetadataRecord::V1UnregisterBroker(_) => 9,
        MetadataRecord::V1KRaftVersion(_) => 10,
        MetadataRecord::V1FeatureLevel(_) => 11,
        MetadataRecord::V1ClientMetricsConfig(_) => 12,
        MetadataRecord::V1FeaturesEpoch(_) => 13,
        MetadataRecord::V1PartitionDirAssignment(_) => 14,
        MetadataRecord::V1PartitionOffsetAdvance(_) => 15,
        MetadataRecord::V1GroupConfig(_) => 16,
        MetadataRecord::V1ControllerRegistration(_) => 17,
        MetadataRecord::V1TopicFreeze(_) => 18,
        MetadataRecord::V1BreakGlassProposal(_) => 19,
        MetadataRecord::V1DeleteBreakGlassProposal(_) => 20,
        MetadataRecord::V1PartitionElr(_) => 21,
        MetadataRecord::V1PartitionRecovery(_) => 22,
        MetadataRecord::V1PartitionUpdate(_) => 23,
        MetadataRecord::V1BrokerRegistrationChange(_) => 24,
        MetadataRecord::V1UnregisterController(_) => 25,
        _ => return None,
    })
}
