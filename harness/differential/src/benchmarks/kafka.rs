//! Reading and writing of Kafka's own record bytes, which take no image. The
//! harness's codec takes memory for its answer; the library fills an output.

use std::hint::black_box;

use oracle::facts::build::feature_level;
use wire::{encoded, kafka};

use super::records::Record;
use super::times::Times;
use crate::{kafka_read, kafka_write, typical};

/// Longer than each of these records.
const ROOM: usize = 256;

pub fn measure() -> Vec<Record> {
    let [(_, topic), ..] = typical();
    let level = encoded(&feature_level("metadata.version", 25));
    vec![measured("topic", &topic), measured("level", &level)]
}

/// A record of ours as it is written, and read from there.
fn measured(name: &'static str, record: &[u8]) -> Record {
    let bytes = kafka::write(record).expect("a record that Kafka has");
    let (mut out, mut used) = ([0; ROOM], [0]);
    assert_eq!(kafka_write(record, &mut out), Ok(bytes.len()), "{name}");
    assert!(out.starts_with(&bytes), "{name}: other bytes");
    let write = Times::of(
        || kafka_write(black_box(record), &mut out),
        || kafka::write(black_box(record)),
    );
    let (back, _) = kafka::read(&bytes).expect("what was written");
    let answer = kafka_read(&bytes, &mut out, &mut used);
    assert_eq!(answer, Ok(back.len()), "{name}");
    assert!(out.starts_with(&back), "{name}: another record");
    let read = Times::of(
        || kafka_read(black_box(&bytes), &mut out, &mut used),
        || kafka::read(black_box(&bytes)),
    );
    Record {
        name,
        bytes: bytes.len(),
        read,
        write,
    }
}
