//! Passes: the records that Downgrade lists, given to Apply one after the other,
//! on the library's image and on the reference's. After each record both hold
//! the same, and what is neither a broker nor a partition is as it was; after
//! the last one there is nothing to list.

mod cases;

pub use cases::compare_named_passes;

use std::collections::{BTreeMap, BTreeSet};

use krabka_metadata::{EntityKey, MetadataRecord, NodeId};
use oracle::downgrade;
use oracle::image::{FIXED_ROOM, MOST_CAPACITY, image, weight};
use oracle::snapshot::start;
use oracle::verdict::{ACCEPTED, NO_ROOM};
use wire::{Random, encoded, encoded_all};

use super::History;
use super::course::Course;
use super::drawn::Drawn;
use super::reference::Reference;
use crate::images::{Compared, Tally, shown};
use crate::{downgrade as listing, snapshot};

/// Levels at which the listing changes, those before them, and levels that
/// Kafka does not know.
const LEVELS: [i16; 8] = [i16::MIN, -1, 0, 16, 17, 29, 30, i16::MAX];

/// How a pass ended.
#[derive(PartialEq, Eq, Debug, Clone, Copy)]
enum End {
    Done,
    /// By 18, after so many records.
    Stopped(usize),
}

/// Compares passes over the image of the history of a seed: with room for all
/// of them, and at a capacity that is the image's weight.
pub fn compare_passes(tally: &mut Tally, seed: u64) -> Compared {
    let drawn = Drawn::of(&mut Random::beside(seed), seed);
    let mut reference = Reference::new();
    for input in &drawn.inputs {
        reference.take(input, drawn.validated);
    }
    let needed = LEVELS.map(|level| needed(&reference, level));
    let room = drawn.reached.max(needed.into_iter().max().unwrap_or(0));
    let history = History {
        capacity: room.clamp(FIXED_ROOM, MOST_CAPACITY),
        validated: drawn.validated,
        inputs: drawn.inputs,
    };
    let course = history.compare(&mut Tally::default())?;
    match compare_levels(tally, &course) {
        Ok(_) => Ok(()),
        Err(difference) => Err(history.least(difference, |course| {
            compare_levels(&mut Tally::default(), course).map(|_| ())
        })),
    }
}

/// The passes to all levels from where the course is. Gives how the ones at the
/// weight ended.
fn compare_levels(tally: &mut Tally, course: &Course) -> Result<[End; LEVELS.len()], String> {
    let observed = course.reference.observed();
    let tight = image(&observed, weight(&observed)).expect("contents that fit");
    let mut ends = [End::Done; LEVELS.len()];
    for (end, level) in ends.iter_mut().zip(LEVELS) {
        let told = |difference| {
            let image = shown(&course.buffer);
            format!("{difference}\nin a pass to {level} from {image}")
        };
        let roomy = compare_pass(tally, course.clone(), level).map_err(told)?;
        count(tally, "passes with room", roomy);
        let mut other = course.clone();
        other.go_on(tight.clone(), course.reference.clone())?;
        *end = compare_pass(tally, other, level).map_err(told)?;
        count(tally, "passes at the weight", *end);
    }
    Ok(ends)
}

fn count(tally: &mut Tally, what: &'static str, end: End) {
    match end {
        End::Done => tally.count(what, "done"),
        End::Stopped(0) => tally.count(what, "stopped by 18 at the first"),
        End::Stopped(_) => tally.count(what, "stopped by 18 later"),
    }
}

/// One pass. A step compares Validate's and Apply's number and every byte of
/// the buffer, so that an 18 leaves the image before that record.
fn compare_pass(tally: &mut Tally, mut course: Course, level: i16) -> Result<End, String> {
    let alone = own_pass(&course.reference, level);
    let rest = Rest::of(&course)?;
    let listed = listed(tally, &course, level)?;
    for (given, input) in listed.iter().enumerate() {
        let verdict = course.take(tally, input, true)?;
        if verdict.validate != ACCEPTED {
            return Err(format!("Validate says {}", verdict.validate));
        }
        if Rest::of(&course)? != rest {
            return Err(format!("the rest has moved after {given} records"));
        }
        match verdict.apply {
            Some(ACCEPTED) => {}
            Some(NO_ROOM) => return Ok(End::Stopped(given)),
            other => return Err(format!("Apply says {other:?}")),
        }
    }
    if !self::listed(tally, &course, level)?.is_empty() {
        return Err("records are listed after the pass".to_owned());
    }
    let alone = alone.observed().at(course.reference.offset);
    match alone == course.reference.observed() {
        true => Ok(End::Done),
        false => Err("the reference's own order leaves another image".to_owned()),
    }
}

/// The listing's records, which are the reference's. An output that is as long
/// as they are is enough.
fn listed(tally: &mut Tally, course: &Course, level: i16) -> Result<Vec<Vec<u8>>, String> {
    let records = downgrade::downgrade(&course.reference.image, level);
    let expected = encoded_all(&records);
    let mut out = vec![0xAA; expected.len()];
    let answer = listing(&course.buffer, level, &mut out);
    if answer != Ok(expected.len()) || out != expected {
        return Err(format!("Downgrade says {answer:?}, or other bytes"));
    }
    let what = if records.is_empty() { "none" } else { "some" };
    tally.count("listings", what);
    Ok(records.iter().map(encoded).collect())
}

/// The reference after its own listing, in its own order, at the log offset of
/// before.
fn own_pass(reference: &Reference, level: i16) -> Reference {
    let mut reference = reference.clone();
    for record in reference.image.metadata_version_downgrade_records(level) {
        reference.take(&encoded(&record), true);
    }
    reference
}

/// The greatest weight on the way of a pass.
fn needed(reference: &Reference, level: i16) -> usize {
    let mut reference = reference.clone();
    let mut most = weight(&reference.observed());
    for record in downgrade::downgrade(&reference.image, level) {
        reference.take(&encoded(&record), true);
        most = most.max(weight(&reference.observed()));
    }
    most
}

/// What a pass must not move: the records of all kinds but brokers and
/// partitions, what ids name, the empty groups and the fixed parts.
#[derive(PartialEq, Eq)]
struct Rest {
    records: Vec<u8>,
    named: BTreeMap<String, bool>,
    empty_brokers: BTreeSet<NodeId>,
    empty_quotas: BTreeSet<EntityKey>,
    epoch: i64,
    kraft: u16,
}

impl Rest {
    /// Of both sides: the records of the library's snapshot are the reference's.
    /// That its groups and numbers are too, the course sees by the bytes.
    fn of(course: &Course) -> Result<Self, String> {
        let observed = course.reference.observed();
        let others = observed.records.iter().filter(|record| is_other(record));
        let others: Vec<u8> = others.flat_map(encoded).collect();
        match others == in_snapshot(&course.buffer)? {
            true => Ok(Self {
                records: others,
                named: observed.named,
                empty_brokers: observed.empty_brokers,
                empty_quotas: observed.empty_quotas,
                epoch: observed.epoch,
                kraft: observed.kraft,
            }),
            false => Err("Snapshot has other records".to_owned()),
        }
    }
}

fn is_other(record: &MetadataRecord) -> bool {
    !matches!(
        record,
        MetadataRecord::V1BrokerRegistration(_) | MetadataRecord::V1Partition(_)
    )
}

/// The bytes of the library's snapshot, without brokers and partitions, and
/// without the log offset, which a pass moves.
fn in_snapshot(buffer: &[u8]) -> Result<Vec<u8>, String> {
    let mut out = vec![0; buffer.len()];
    let written = snapshot(buffer, &mut out).map_err(|number| format!("Snapshot says {number}"))?;
    let (_, first) = start(&out[..written]).map_err(|number| format!("{number} at the start"))?;
    let (mut rest, mut others) = (&out[first..written], Vec::new());
    while let Ok((record, used)) = wire::decode(rest) {
        if is_other(&record) {
            others.extend(&rest[..used]);
        }
        rest = &rest[used..];
    }
    Ok(others)
}
