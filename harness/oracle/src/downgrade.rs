//! The reference's listing for a downgrade, in 01's order: brokers by node,
//! then assignments by topic, partition, slot. The reference's own order is a
//! hash's, but for the slots of one partition.

use krabka_metadata::{MetadataImage, MetadataRecord, NodeId};

#[derive(PartialEq, Eq, PartialOrd, Ord)]
enum Place {
    Broker(NodeId),
    Slots(String, i32),
}

/// The records that take an image to a level.
pub fn downgrade(image: &MetadataImage, level: i16) -> Vec<MetadataRecord> {
    let mut records = image.metadata_version_downgrade_records(level);
    records.sort_by_cached_key(place);
    records
}

fn place(record: &MetadataRecord) -> Place {
    match record {
        MetadataRecord::V1BrokerRegistration(broker) => Place::Broker(broker.node_id),
        MetadataRecord::V1PartitionDirAssignment(slot) => {
            Place::Slots(slot.topic.clone(), slot.partition)
        }
        other => panic!("no record of a listing: {other:?}"),
    }
}
