//! Writes the input and the expected output of the program `test_read`: records, good and damaged, and what the harness's own reader says of
//! them. From the repository's root:
//!
//!     cargo run --manifest-path harness/Cargo.toml --example read_vectors -- crates/test_read

use oracle::facts::build::partition_record;
use oracle::generate::{Generator, Knobs};
use oracle::stored::Stored;
use wire::{LOG_OFFSET, NO_RECORD, Random, damaged, encoded, encoded_offset, field, read};

const SEED: u64 = 4;
const GOOD: usize = 260;

const HEAD: &str = "\
# Records in hexadecimal, one to a line, good and damaged; made by harness/oracle/examples/read_vectors.rs
";

fn main() {
    let mut stored = Stored::new(HEAD);
    for input in inputs() {
        let answer = match read(&input) {
            Ok(used) => format!("0 {used}"),
            Err(number) => number.to_string(),
        };
        stored.line(&input, &answer);
    }
    stored.write();
}

/// Generated records, each with a damaged copy, and inputs at the limits.
fn inputs() -> Vec<Vec<u8>> {
    let mut random = Random::beside(SEED);
    let knobs = Knobs {
        extreme: 2,
        old_names: true,
        ..Knobs::default()
    };
    let mut inputs = edges();
    for record in Generator::new(SEED, knobs).history(GOOD) {
        let good = encoded(&record);
        inputs.push(damaged(&mut random, &good));
        inputs.push(good);
    }
    inputs
}

/// Empty and cut headers, unknown kinds, lengths that lie, the longest body, map order, limits, replica lists, and log offsets.
fn edges() -> Vec<Vec<u8>> {
    let level: &[u8] = &[11, 0, 9, 1, 0, 1, b'a', 2, 0, 2, 0, 1];
    let mut edges: Vec<Vec<u8>> = (0..=level.len()).map(|n| level[..n].to_vec()).collect();
    for at in 0..level.len() {
        for change in [0x01, 0x80, 0xff] {
            let mut changed = level.to_vec();
            changed[at] ^= change;
            edges.push(changed);
        }
    }
    for kind in [0, 26, 27, 255] {
        edges.push(vec![kind, 0, 0]);
    }
    for length in [254, 255, 256] {
        edges.push(named(&"x".repeat(length)));
        edges.push(named(&format!("{}\u{10ffff}", "x".repeat(length - 4))));
    }
    edges.push(named("\0"));
    edges.push(run(4, &[(1, vec![0xed, 0xa0, 0x80])]));
    edges.push(run(4, &[(1, vec![0xc0, 0x80])]));
    edges.push(run(4, &[(1, vec![0xf4, 0x90, 0x80, 0x80])]));
    for count in [64, 65] {
        edges.push(pairs((0..count).map(|n| format!("{n:03}"))));
        edges.push(run(
            21,
            &[
                (1, b"t".to_vec()),
                (2, vec![0; 4]),
                (3, vec![0; count * 8]),
                (4, vec![]),
            ],
        ));
    }
    edges.push(pairs(["b", "a"].map(String::from).into_iter()));
    edges.push(pairs(["a", "a"].map(String::from).into_iter()));
    edges.push(pairs(["a".to_string(), "x".repeat(256)].into_iter()));
    edges.push(run(
        7,
        &(0..9).map(|_| (1, field(1, b"user"))).collect::<Vec<_>>(),
    ));
    let most: Vec<u64> = (1..=64).collect();
    let (again, many) = ([&most[..63], &[1]].concat(), [&most[..], &[1]].concat());
    for replicas in [&[1, 2][..], &[1, 1], &[1, 2, 1], &most, &again, &many] {
        edges.push(encoded(&partition_record("p", 0, replicas)));
    }
    let mut longest = vec![2, 0xff, 0xff];
    longest.resize(3 + 65_535, 0);
    edges.push(longest);
    edges.extend(offsets());
    edges
}

/// Log offsets from -1 on, those below, and bodies that are none.
fn offsets() -> Vec<Vec<u8>> {
    let numbers = [NO_RECORD, 0, 1, i64::MAX, -2, -257, i64::MIN + 1, i64::MIN];
    let mut offsets: Vec<Vec<u8>> = numbers.map(encoded_offset).to_vec();
    let whole = encoded_offset(5);
    offsets.extend((1..whole.len()).map(|end| whole[..end].to_vec()));
    for length in [0, 1, 7, 9, 16] {
        offsets.push(run(LOG_OFFSET, &[(1, vec![0; length])]));
    }
    offsets.push(run(LOG_OFFSET, &[(2, vec![0; 8])]));
    offsets.push(run(LOG_OFFSET, &[(1, vec![0; 8]), (1, vec![0; 8])]));
    offsets.push([whole, vec![7; 20]].concat());
    offsets
}

fn run(kind: u8, fields: &[(u8, Vec<u8>)]) -> Vec<u8> {
    let body: Vec<u8> = fields
        .iter()
        .flat_map(|(tag, value)| field(*tag, value))
        .collect();
    field(kind, &body)
}

fn named(name: &str) -> Vec<u8> {
    run(4, &[(1, name.as_bytes().to_vec())])
}

/// A topic config of these keys.
fn pairs(keys: impl Iterator<Item = String>) -> Vec<u8> {
    let mut fields = vec![(1, b"t".to_vec())];
    fields.extend(keys.map(|key| (2, [field(1, key.as_bytes()), field(2, b"v")].concat())));
    run(5, &fields)
}
