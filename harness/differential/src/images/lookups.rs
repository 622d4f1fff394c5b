//! Each lookup of an image against the reference's own answer.

mod answer;
pub mod queries;

use krabka_metadata::{MetadataRecord, NodeId};
use oracle::verdict::NO_IMAGE;
use uuid::Uuid;
use wire::{OVER_A_LIMIT, WRONG_FIELD, encoded, hex};

use super::subject::{On, Subject};
use super::{Compared, Tally};
use crate::{broker, features_epoch, log_offset, partition, short_count, topic, topic_by_id};
pub use answer::{compare_record, compare_refused, compare_value};

/// All lookups of `image`, which holds what the subject does.
pub fn compare(tally: &mut Tally, subject: &Subject, image: &[u8]) -> Compared {
    compare_stored(tally, subject, image)?;
    subject.compare(tally, image, &[compare_bad_names])
}

/// Those by what is stored and by what is near it.
pub fn compare_stored(tally: &mut Tally, subject: &Subject, image: &[u8]) -> Compared {
    let lookups: [On; 5] = [
        compare_topics,
        compare_ids,
        compare_partitions,
        compare_brokers,
        compare_numbers,
    ];
    subject.compare(tally, image, &lookups)
}

fn compare_topics(tally: &mut Tally, subject: &Subject, image: &[u8]) -> Compared {
    for name in queries::names(&subject.image) {
        let record = subject.image.topic(&name).cloned();
        let record = record.map(MetadataRecord::V1Topic);
        let question = || format!("the topic {name:?}");
        let call = |out: &mut [u8]| topic(image, name.as_bytes(), out);
        compare_record(tally, "topic by name", question, bytes(record), call)?;
    }
    Ok(())
}

fn compare_ids(tally: &mut Tally, subject: &Subject, image: &[u8]) -> Compared {
    for id in queries::ids(&subject.image) {
        let record = subject.image.topic_by_id(&Uuid::from_bytes(id));
        let record = record.cloned().map(MetadataRecord::V1Topic);
        let question = || format!("the topic of id {}", told(&id));
        let call = |out: &mut [u8]| topic_by_id(image, &id, out);
        compare_record(tally, "topic by id", question, bytes(record), call)?;
    }
    Ok(())
}

fn compare_partitions(tally: &mut Tally, subject: &Subject, image: &[u8]) -> Compared {
    for (name, number) in queries::partitions(&subject.image) {
        let record = subject.image.partition(&name, number).cloned();
        let record = record.map(MetadataRecord::V1Partition);
        let question = || format!("partition {number} of {name:?}");
        let call = |out: &mut [u8]| partition(image, name.as_bytes(), number, out);
        compare_record(tally, "partition", question, bytes(record), call)?;
    }
    Ok(())
}

fn compare_bad_names(tally: &mut Tally, _: &Subject, image: &[u8]) -> Compared {
    for (name, number) in bad_names() {
        let question = || format!("the topic {}", told(&name));
        let call = |out: &mut [u8]| topic(image, &name, out);
        compare_refused(tally, "topic by name", question, number, call)?;
        let question = || format!("partition 0 of {}", told(&name));
        let call = |out: &mut [u8]| partition(image, &name, 0, out);
        compare_refused(tally, "partition", question, number, call)?;
    }
    Ok(())
}

fn compare_brokers(tally: &mut Tally, subject: &Subject, image: &[u8]) -> Compared {
    for node in queries::nodes(&subject.image) {
        let record = subject.image.broker(NodeId(node)).cloned();
        let record = record.map(MetadataRecord::V1BrokerRegistration);
        let question = || format!("the broker {node}");
        let call = |out: &mut [u8]| broker(image, node, out);
        compare_record(tally, "broker", question, bytes(record), call)?;
    }
    Ok(())
}

/// The features epoch, the log offset and the short count.
fn compare_numbers(tally: &mut Tally, subject: &Subject, image: &[u8]) -> Compared {
    let epoch = subject.image.finalized_features_epoch();
    let call = |value: &mut [u64]| features_epoch(image, value).map(|zero| zero + 1);
    compare_value(tally, "features epoch", Ok(Some(epoch)), call)?;
    let offset = subject.observed.offset;
    let call = |value: &mut [u64]| log_offset(image, value).map(|zero| zero + 1);
    compare_value(tally, "log offset", Ok(Some(offset)), call)?;
    let (answer, expected) = (short_count(image), Ok(subject.observed.short));
    tally.count("short count", 0);
    match answer == expected {
        true => Ok(()),
        false => Err(format!("the short count is {answer:?}, not {expected:?}")),
    }
}

/// Every lookup says 1, whatever is asked, and leaves its output.
pub fn compare_no_image(tally: &mut Tally, buffer: &[u8]) -> Compared {
    let what = "lookups of no image";
    let names: [&[u8]; 4] = [b"p", b"", &[0xff], &[b'n'; 256]];
    for name in names {
        let call = |out: &mut [u8]| topic(buffer, name, out);
        compare_refused(tally, what, || "a topic".to_owned(), NO_IMAGE, call)?;
        let call = |out: &mut [u8]| partition(buffer, name, 0, out);
        compare_refused(tally, what, || "a partition".to_owned(), NO_IMAGE, call)?;
    }
    let call = |out: &mut [u8]| topic_by_id(buffer, &[0; 16], out);
    compare_refused(tally, what, || "the id 0".to_owned(), NO_IMAGE, call)?;
    let call = |out: &mut [u8]| broker(buffer, 1, out);
    compare_refused(tally, what, || "a broker".to_owned(), NO_IMAGE, call)?;
    for number in [features_epoch, log_offset] {
        let call = |value: &mut [u64]| number(buffer, value);
        compare_value(tally, what, Err(NO_IMAGE), call)?;
    }
    tally.count(what, NO_IMAGE);
    match short_count(buffer) {
        Err(NO_IMAGE) => Ok(()),
        other => Err(format!("the short count of no image is {other:?}")),
    }
}

fn bytes(record: Option<MetadataRecord>) -> Option<Vec<u8>> {
    record.map(|record| encoded(&record))
}

/// A name or an id: its length, and its first bytes.
pub fn told(name: &[u8]) -> String {
    let start = &name[..name.len().min(32)];
    format!("{} bytes {}", name.len(), hex(start))
}

/// Names that are no UTF-8, and names that are too long; 4 comes before 5.
pub fn bad_names() -> Vec<(Vec<u8>, u8)> {
    let no_text: [&[u8]; 8] = [
        &[0xff],
        &[0x80],
        &[b'p', 0xc3],
        &[0xc0, 0x80],
        &[0xed, 0xa0, 0x80],
        &[0xf4, 0x90, 0x80, 0x80],
        &[0xff; 256],
        &[&[b'n'; 255][..], &[0xff]].concat(),
    ];
    let too_long = ["n".repeat(256), "n".repeat(252) + "𝄞", "n".repeat(70_000)];
    let no_text = no_text.iter().map(|name| (name.to_vec(), WRONG_FIELD));
    let too_long = too_long.map(|name| (name.into_bytes(), OVER_A_LIMIT));
    no_text.chain(too_long).collect()
}
