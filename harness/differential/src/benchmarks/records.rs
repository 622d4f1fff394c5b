//! Read and Write of typical records, which take no image, beside the harness's
//! own.

use std::hint::black_box;

use wire::Lists;

use super::times::Times;
use crate::{read, typical, write};

/// A typical record.
pub struct Record {
    pub name: &'static str,
    pub bytes: usize,
    pub read: Times,
    pub write: Times,
}

impl Record {
    /// The better times of both.
    pub fn best(self, other: &Self) -> Self {
        Self {
            read: self.read.best(other.read),
            write: self.write.best(other.write),
            ..self
        }
    }
}

pub fn measure() -> Vec<Record> {
    let records = typical().into_iter();
    records
        .map(|(name, bytes)| measured(name, &bytes))
        .collect()
}

fn measured(name: &'static str, bytes: &[u8]) -> Record {
    assert_eq!(wire::read(bytes), Ok(bytes.len()), "{name}");
    assert_eq!(read(bytes), Ok(bytes.len()), "{name}");
    Record {
        name,
        bytes: bytes.len(),
        read: Times::of(|| read(black_box(bytes)), || wire::read(black_box(bytes))),
        write: written(bytes),
    }
}

/// Writes the record from its own fields.
fn written(bytes: &[u8]) -> Times {
    let lists = Lists::of(bytes);
    let (mut ours, mut theirs) = (vec![0; bytes.len()], vec![0; bytes.len()]);
    let times = Times::of(
        || write(black_box(&lists), &mut ours),
        || wire::write(black_box(&lists), &mut theirs),
    );
    assert_eq!((&ours[..], &theirs[..]), (bytes, bytes));
    times
}
