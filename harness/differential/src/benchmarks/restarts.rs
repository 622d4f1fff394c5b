//! Snapshot, Restore and the listing for a downgrade. The Rust's records are
//! sorted and encoded, or decoded, so that both sides begin and end with bytes.

use std::hint::black_box;

use krabka_metadata::{MetadataImage, MetadataRecord};
use oracle::image::image;
use oracle::snapshot::{start, starting};
use oracle::{downgrade, order};
use uuid::Uuid;
use wire::{decode, encoded_all};

use super::recordings::RESTORED;
use super::rows::Timed;
use crate::images::{Full, Subject};

/// A level at which every partition is listed.
const LEVEL: i16 = 16;

pub fn measure(full: &Full) -> Vec<Timed> {
    let (capacity, snapshot) = (full.bytes.len(), snapshot(full));
    vec![
        taken(full, &snapshot),
        restored(capacity, "Restore", &snapshot),
        restored(capacity, RESTORED, &turned(&snapshot)),
        listed(full),
    ]
}

fn taken(full: &Full, expected: &[u8]) -> Timed {
    let mut out = vec![0; full.bytes.len()];
    assert_eq!(crate::snapshot(&full.bytes, &mut out), Ok(expected.len()));
    assert!(
        out.starts_with(expected),
        "another snapshot than the Rust's"
    );
    Timed::of(
        "Snapshot",
        "`to_records`, sorted and encoded",
        || crate::snapshot(black_box(&full.bytes), &mut out),
        || snapshot(black_box(full)).len(),
    )
}

pub fn restored(capacity: usize, name: &'static str, input: &[u8]) -> Timed {
    let mut buffer = vec![0; capacity];
    assert_eq!(crate::restore(&mut buffer, input), Ok(()), "{name}");
    assert!(
        Some(&buffer) == laid_out(input, capacity).as_ref(),
        "{name}"
    );
    Timed::of(
        name,
        "decoded, and `from_records`",
        || crate::restore(black_box(&mut buffer), black_box(input)),
        || rebuilt(black_box(input)),
    )
}

fn listed(full: &Full) -> Timed {
    let expected = listing(&full.image);
    let mut out = vec![0; expected.len()];
    let answer = crate::downgrade(&full.bytes, LEVEL, &mut out);
    assert_eq!(answer, Ok(expected.len()));
    assert!(out == expected, "another listing than the Rust's");
    Timed::of(
        "downgrade to level 16",
        "`metadata_version_downgrade_records`, sorted and encoded",
        || crate::downgrade(black_box(&full.bytes), LEVEL, &mut out),
        || listing(black_box(&full.image)).len(),
    )
}

pub fn snapshot(full: &Full) -> Vec<u8> {
    let mut records = full.image.to_records();
    order::sort(&mut records);
    starting(full.offset, &encoded_all(&records))
}

fn rebuilt(input: &[u8]) -> MetadataImage {
    MetadataImage::from_records(Uuid::nil(), &decoded(input).1)
}

/// The bytes of the Rust's image of some records.
fn laid_out(input: &[u8], capacity: usize) -> Option<Vec<u8>> {
    let (offset, records) = decoded(input);
    image(&Subject::of(&records).observed.at(offset), capacity)
}

fn listing(image: &MetadataImage) -> Vec<u8> {
    encoded_all(&downgrade::downgrade(image, LEVEL))
}

/// The records from the last to the first: no snapshot has this order, so that
/// they are restored one by one.
fn turned(snapshot: &[u8]) -> Vec<u8> {
    let (offset, mut records) = decoded(snapshot);
    records.reverse();
    starting(offset, &encoded_all(&records))
}

/// A snapshot's log offset and its records.
pub fn decoded(snapshot: &[u8]) -> (i64, Vec<MetadataRecord>) {
    let (offset, first) = start(snapshot).expect("a snapshot's log offset");
    let (mut rest, mut records) = (&snapshot[first..], Vec::new());
    while !rest.is_empty() {
        let (record, used) = decode(rest).expect("a snapshot's record");
        records.push(record);
        rest = &rest[used..];
    }
    (offset, records)
}
