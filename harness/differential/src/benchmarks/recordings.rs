//! Two recordings of the records that fill an image of 64 KB, held against each
//! other, beside other calls that apply as many records. The one is Restore of
//! these from the last to the first, which is no snapshot's order: it applies each
//! by the step that is taken here for each run, tests no image and compares
//! nothing (`rows` has it). The other is a call of Apply for each, which tests the
//! image every time.

use std::hint::black_box;

use oracle::facts::build::feature_level;
use wire::encoded;

use super::restarts::{decoded, snapshot};
use crate::histories::without_effect;
use crate::images::Full;
use crate::timing::best;
use crate::{apply, compare, open};

/// The row that stands beside them.
pub const RESTORED: &str = "Restore, records reversed";

pub struct Recordings {
    pub name: &'static str,
    /// How many records of each run are applied.
    pub count: usize,
    /// Nanoseconds for both runs, and for as many calls of Apply as one has.
    pub compared: f64,
    pub applied: f64,
}

impl Recordings {
    /// The better times of both.
    pub fn best(self, other: &Self) -> Self {
        Self {
            compared: self.compared.min(other.compared),
            applied: self.applied.min(other.applied),
            ..self
        }
    }
}

pub fn measure(full: &Full) -> Vec<Recordings> {
    let (_, records) = decoded(&snapshot(full));
    let records: Vec<Vec<u8>> = records.iter().map(encoded).collect();
    let (last, before) = records.split_last().expect("records");
    let other = encoded(&feature_level("a", 1));
    let [nothing, group] = without_effect();
    let capacity = full.bytes.len();
    let applied = applied(capacity, &records);
    let row = |name, parts, [one, other]: [Vec<u8>; 2]| Recordings {
        name,
        count: records.len(),
        compared: compared(capacity, records.len(), parts, &one, &other),
        applied,
    };
    let ending = |last: &[u8]| [&before.concat(), last].concat();
    let starting = |first: &[u8]| [first, &before.concat()].concat();
    vec![
        row("equal runs", false, [ending(last), ending(last)]),
        row("another last record", true, [ending(last), ending(&other)]),
        row(
            "equal records behind an empty group in one",
            false,
            [starting(&nothing), starting(&group)],
        ),
    ]
}

/// Both runs have so many records, and part after them or agree.
fn compared(capacity: usize, count: usize, parts: bool, one: &[u8], other: &[u8]) -> f64 {
    let (mut first, mut second) = (vec![0; capacity], vec![0; capacity]);
    let mut value = [0];
    let answer = compare(&mut first, &mut second, one, other, &mut value);
    assert_eq!((answer, value), (Ok(parts.into()), [count as u64]));
    let (one, other) = (black_box(one), black_box(other));
    best(|| compare(&mut first, &mut second, one, other, &mut value))
}

/// Each record by a call of its own, from a fresh image on.
fn applied(capacity: usize, records: &[Vec<u8>]) -> f64 {
    let mut buffer = vec![0; capacity];
    best(|| {
        open(&mut buffer).expect("a capacity that Open takes");
        for (offset, record) in (0..).zip(records) {
            assert_eq!(apply(&mut buffer, offset, black_box(record)), 0);
        }
    })
}
