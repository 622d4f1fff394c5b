//! The freeze of a name from a run of records, beside Read of its records in a
//! row, and beside Restore of the run and the lookup on the image.

use std::hint::black_box;

use oracle::snapshot::start;
use wire::field;

use super::restarts::snapshot;
use super::times::Times;
use crate::images::Full;
use crate::{freeze, log_freeze, read, restore};

/// How long the long runs are, at least.
const LONG: usize = 1 << 20;
/// The longest name, and a short one.
const NAMES: [(&str, usize); 2] = [("255 bytes", 255), ("8 bytes", 8)];

pub struct Log {
    pub name: String,
    pub beside: &'static str,
    /// Of the freeze from the run, and of what stands beside it.
    pub times: Times,
}

impl Log {
    /// The better times of both.
    pub fn best(self, other: &Self) -> Self {
        Self {
            times: self.times.best(other.times),
            ..self
        }
    }
}

pub fn measure(full: &Full) -> Vec<Log> {
    let snapshot = snapshot(full);
    let (_, first) = start(&snapshot).expect("a snapshot starts with its offset");
    let plans = repeated(&snapshot[first..]);
    let mut logs = vec![whole(full, &snapshot)];
    for (told, length) in NAMES {
        let name = "n".repeat(length);
        logs.push(long(
            &format!("1 MB of plans, a name of {told}"),
            &plans,
            &name,
        ));
        let frozen = repeated(&freezes(&name));
        logs.push(long(
            &format!("1 MB of freezes, a name of {told}"),
            &frozen,
            &name,
        ));
    }
    logs
}

/// The snapshot of a full image.
fn whole(full: &Full, snapshot: &[u8]) -> Log {
    let (name, mut buffer) = (full.name.as_bytes(), vec![0; full.bytes.len()]);
    let (mut one, mut other) = ([0; 1_024], [0; 1_024]);
    let written = log_freeze(snapshot, name, &mut one).expect("a run that reads");
    assert_eq!(freeze(&full.bytes, name, &mut other), Ok(written));
    assert!(one == other, "another freeze than the image's");
    Log {
        name: "the snapshot of the full image of 64 KB".to_owned(),
        beside: "Restore, and the lookup",
        times: Times::of(
            || log_freeze(black_box(snapshot), name, &mut one),
            || {
                restore(&mut buffer, black_box(snapshot)).expect("a snapshot");
                freeze(&buffer, name, &mut other)
            },
        ),
    }
}

fn long(told: &str, run: &[u8], name: &str) -> Log {
    let mut out = [0; 1_024];
    let name = name.as_bytes();
    log_freeze(run, name, &mut out).expect("a run that reads");
    Log {
        name: told.to_owned(),
        beside: "Read of its records in a row",
        times: Times::of(
            || log_freeze(black_box(run), name, &mut out),
            || read_all(black_box(run)),
        ),
    }
}

fn read_all(run: &[u8]) -> usize {
    let (mut place, mut count) = (0, 0);
    while place < run.len() {
        place += read(&run[place..]).expect("a run that reads");
        count += 1;
    }
    count
}

/// Freezes of each prefix of a name, of both patterns, and their thaws.
fn freezes(name: &str) -> Vec<u8> {
    let mut run = Vec::new();
    for length in 0..=name.len() {
        for (pattern, frozen) in [(0, 1), (1, 1), (0, 0), (1, 0)] {
            run.extend(record(&name.as_bytes()[..length], pattern, frozen));
        }
    }
    run
}

fn record(scope: &[u8], pattern: u8, frozen: u8) -> Vec<u8> {
    let fields = [
        field(1, scope),
        field(2, &[pattern]),
        field(3, &[frozen]),
        field(4, b"a plan under review"),
        field(5, b"release desk"),
        field(6, &5_i64.to_be_bytes()),
        field(7, &[7; 16]),
        field(8, b"key-1"),
        field(9, &[9; 64]),
    ];
    field(18, &fields.concat())
}

/// As often as the length of a long run takes.
fn repeated(run: &[u8]) -> Vec<u8> {
    run.repeat(LONG.div_ceil(run.len()))
}
