//! Replica lists of known standing: with and without a repeat, at the limit and
//! past it, in a Partition and in a PartitionUpdate.

use std::ops::Range;

use oracle::facts::build::partition_record;
use wire::{OVER_A_LIMIT, REPEATED, Run, WRONG_FIELD, encoded, field};

const PARTITION: u8 = 2;
const PARTITION_UPDATE: u8 = 23;

/// The tags of a partition's fields.
const TOPIC: u8 = 1;
const REPLICAS: u8 = 4;
const ISR: u8 = 5;

/// As many nodes as there may be.
const MOST: usize = 64;

/// Records, each with Read's number.
pub fn replica_lists() -> Vec<(Vec<u8>, u8)> {
    let lists = lengths().into_iter().chain(values()).chain(pairs());
    let lists = lists.map(|(value, number)| (with(&[(REPLICAS, value)]), number));
    let fields = lists.chain(beside_others());
    fields
        .flat_map(|(fields, number)| records(&fields).map(|record| (record, number)))
        .collect()
}

/// A partition's fields as a Partition, and as an update's nested one.
fn records(fields: &[u8]) -> [Vec<u8>; 2] {
    let nested = field(1, fields);
    [field(PARTITION, fields), field(PARTITION_UPDATE, &nested)]
}

/// No node to one too many, in whole nodes and with bytes left over, with a
/// repeat and without.
fn lengths() -> Vec<(Vec<u8>, u8)> {
    let counted = [0, 1, 2, 3, 4, 5, MOST - 1, MOST].map(|count| (nodes(0..count), 0));
    let (many, ragged) = (nodes(0..MOST + 1), nodes(0..3));
    let repeat = |list: &[u8]| [list, &list[..8]].concat();
    let more = |list: &[u8]| [list, &[0]].concat();
    let refused = [
        (many.clone(), OVER_A_LIMIT),
        (repeat(&many[8..]), OVER_A_LIMIT),
        (repeat(&many[16..]), REPEATED),
        (more(&ragged), WRONG_FIELD),
        (more(&repeat(&ragged)), WRONG_FIELD),
        (ragged[..23].to_vec(), WRONG_FIELD),
        (more(&repeat(&many)), WRONG_FIELD),
    ];
    counted.into_iter().chain(refused).collect()
}

/// Two nodes that differ in one byte, at each place, or not at all.
fn values() -> Vec<(Vec<u8>, u8)> {
    let pair = |a: u64, b: u64| [a.to_be_bytes(), b.to_be_bytes()].concat();
    let differing = (0..64).map(|bit| (pair(0, 1 << bit), 0));
    let equal = [0, 1, 1 << 63, u64::MAX].map(|node| (pair(node, node), REPEATED));
    differing.chain(equal).collect()
}

/// One node at two places: each pair of places of few nodes and of the most.
fn pairs() -> Vec<(Vec<u8>, u8)> {
    let meet = |(count, first, last): (usize, usize, usize)| {
        let mut list = nodes(0..count);
        list.copy_within(first * 8..first * 8 + 8, last * 8);
        (list, REPEATED)
    };
    let counts = [2, 3, 4, 5, 6, MOST].into_iter();
    let places = counts.flat_map(|count| {
        (0..count).flat_map(move |last| (0..last).map(move |first| (count, first, last)))
    });
    places.map(meet).collect()
}

/// A repeat with a fault of the field before it, and of the one behind it.
fn beside_others() -> [(Vec<u8>, u8); 4] {
    let repeat = || (REPLICAS, [nodes(1..2), nodes(1..2)].concat());
    let ragged = (ISR, vec![0; 7]);
    [
        (with(&[repeat(), (TOPIC, vec![b'n'; 256])]), OVER_A_LIMIT),
        (with(&[repeat(), (TOPIC, vec![0xff])]), WRONG_FIELD),
        (with(&[repeat(), ragged]), REPEATED),
        (with(&[(ISR, repeat().1)]), 0),
    ]
}

fn nodes(range: Range<usize>) -> Vec<u8> {
    range.flat_map(|node| (node as u64).to_be_bytes()).collect()
}

/// A partition's fields, some of them with other values.
fn with(others: &[(u8, Vec<u8>)]) -> Vec<u8> {
    let record = encoded(&partition_record("p", 0, &[]));
    let fields = Run::new(&record[3..]).map(|found| {
        let (tag, value) = found.expect("whole fields");
        let other = others.iter().find(|(of, _)| *of == tag);
        field(tag, other.map_or(value, |(_, other)| other))
    });
    fields.flatten().collect()
}
