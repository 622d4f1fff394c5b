//! A snapshot's two forms, of a run of 1 MB, beside Read of the run's records
//! one after the other, and beside the harness's own.

use std::hint::black_box;

use oracle::snapshot::{start, starting};

use super::restarts::snapshot;
use super::times::Times;
use crate::histories::{new_form, old_form};
use crate::images::Full;
use crate::timing::best;
use crate::{read, with_offset, without_offset};

/// A run is at least so long.
const RUN: usize = 1 << 20;

pub struct Conversion {
    pub name: &'static str,
    /// How long the run is.
    pub bytes: usize,
    pub times: Times,
    /// Nanoseconds for Read of its records in a row.
    pub read: f64,
}

impl Conversion {
    /// The better times of both.
    pub fn best(self, other: &Self) -> Self {
        Self {
            times: self.times.best(other.times),
            read: self.read.min(other.read),
            ..self
        }
    }
}

/// A full image's records, again and again.
pub fn measure(full: &Full) -> [Conversion; 2] {
    let snapshot = snapshot(full);
    let (offset, first) = start(&snapshot).expect("a snapshot's log offset");
    let body = &snapshot[first..];
    let old = body.repeat(RUN.div_ceil(body.len()));
    let new = starting(offset, &old);
    [to_new(&old, &new, offset), to_old(&new, &old, offset)]
}

fn to_new(old: &[u8], new: &[u8], offset: i64) -> Conversion {
    let mut out = vec![0; new.len()];
    let answer = with_offset(old, offset, &mut out);
    assert_eq!(answer, Ok(new.len() as u64));
    assert!(out == new, "another new form");
    Conversion {
        name: "the old form to the new one",
        bytes: old.len(),
        times: Times::of(
            || with_offset(black_box(old), offset, &mut out),
            || new_form(black_box(old), offset),
        ),
        read: best(|| read_all(black_box(old))),
    }
}

fn to_old(new: &[u8], old: &[u8], offset: i64) -> Conversion {
    let mut out = vec![0; old.len()];
    let answer = without_offset(new, &mut out);
    assert_eq!(answer, Ok((old.len() as u64, offset)));
    assert!(out == old, "another old form");
    Conversion {
        name: "the new form to the old one",
        bytes: new.len(),
        times: Times::of(
            || without_offset(black_box(new), &mut out),
            || old_form(black_box(new)),
        ),
        read: best(|| read_all(black_box(new))),
    }
}

/// How many records Read takes in a row.
fn read_all(run: &[u8]) -> usize {
    let (mut place, mut count) = (0, 0);
    while place < run.len() {
        place += read(&run[place..]).expect("a record");
        count += 1;
    }
    count
}
