//! Open, the exact test, Validate and Apply. Each record is stored already, so
//! that applying it again leaves the image as it was, but for the log offset.

use std::hint::black_box;

use krabka_metadata::{MetadataImage, MetadataRecord};
use oracle::facts::build::broker;
use oracle::layout::OFFSET;
use oracle::verdict::verdict;
use uuid::Uuid;
use wire::encoded;

use super::rows::Timed;
use crate::images::Full;
use crate::{apply, is_image, open, validate};

pub fn measure(full: &Full) -> Vec<Timed> {
    let [topic, partition, broker] = stored(full);
    vec![
        fresh(full),
        exact("exact test", &full.bytes),
        validated(full, "Validate, topic (refused, 6)", &topic),
        validated(full, "Validate, partition", &partition),
        validated(full, "Validate, broker", &broker),
        applied(full, "Apply, topic", &topic),
        applied(full, "Apply, partition", &partition),
        applied(full, "Apply, broker", &broker),
    ]
}

/// A topic, a partition and a broker of the image.
fn stored(full: &Full) -> [MetadataRecord; 3] {
    let topic = full.image.topic(&full.name).expect("a stored topic");
    let partition = full.image.partition(&full.name, 1);
    let partition = partition.expect("a stored partition");
    [
        MetadataRecord::V1Topic(topic.clone()),
        MetadataRecord::V1Partition(partition.clone()),
        MetadataRecord::V1BrokerRegistration(broker(2, 1)),
    ]
}

fn fresh(full: &Full) -> Timed {
    let mut buffer = full.bytes.clone();
    Timed::of(
        "Open",
        "`new`",
        || open(black_box(&mut buffer)).expect("a capacity that Open takes"),
        || MetadataImage::new(black_box(Uuid::nil())),
    )
}

pub fn exact(name: &'static str, bytes: &[u8]) -> Timed {
    assert_eq!(is_image(bytes), 1, "{name}");
    Timed::of(
        name,
        "the harness's own test",
        || is_image(black_box(bytes)),
        || oracle::exact::is_image(black_box(bytes)),
    )
}

/// The topic is refused, since it exists.
fn validated(full: &Full, name: &'static str, record: &MetadataRecord) -> Timed {
    let input = encoded(record);
    let expected = verdict(&full.image, record);
    assert_eq!(validate(&full.bytes, &input), expected, "{name}");
    Timed::of(
        name,
        "`validate`",
        || validate(black_box(&full.bytes), black_box(&input)),
        || full.image.validate(black_box(record)).is_ok(),
    )
}

fn applied(full: &Full, name: &'static str, record: &MetadataRecord) -> Timed {
    let input = encoded(record);
    let mut bytes = full.bytes.clone();
    let mut image = full.image.clone();
    let mut offset = full.offset + 1;
    assert_eq!(apply(&mut bytes, offset, &input), 0, "{name}");
    let mut expected = full.bytes.clone();
    expected[OFFSET].copy_from_slice(&offset.to_be_bytes());
    assert!(bytes == expected, "{name} changes the image");
    Timed::of(
        name,
        "`apply`",
        || {
            offset += 1;
            apply(black_box(&mut bytes), offset, black_box(&input))
        },
        || image.apply(black_box(record)),
    )
}
