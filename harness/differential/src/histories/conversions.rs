//! Snapshots from before the log offset: the old form in the new one, and back.
//! The reference has no log offsets, so the harness says what is expected.

use oracle::shrink::least_run;
use oracle::snapshot::{start, starting};
use oracle::verdict::{MISPLACED_OFFSET, OFFSET_TOO_LOW};
use wire::{LOG_OFFSET, NO_RECORD, Random, TOO_SHORT, encoded_offset, hex, read, read_logged};

use super::course::Course;
use super::drawn::{Drawn, capacities};
use super::runs::to_restore;
use super::{History, rooms};
use crate::images::{Compared, Tally};
use crate::{Refusal, with_offset, without_offset};

/// Both ends, and both sides of the least offset that is taken.
const OFFSETS: [i64; 7] = [i64::MIN, i64::MIN + 1, -2, NO_RECORD, 0, 1, i64::MAX];

/// Converts every snapshot of a drawn history both ways, and at the end runs
/// that no snapshot wrote.
pub fn compare_conversions(tally: &mut Tally, seed: u64) -> Compared {
    let mut random = Random::new(seed ^ 0x0F0);
    let drawn = Drawn::of(&mut random, seed);
    let capacities = capacities(&mut random, drawn.reached);
    let history = History {
        capacity: random.pick(&capacities),
        validated: drawn.validated,
        inputs: drawn.inputs,
    };
    let course = history.along(tally, &mut random, compare_snapshot)?;
    let snapshot = course.expected_snapshot();
    to_restore(&mut random, &snapshot, &history.inputs)
        .iter()
        .try_for_each(|run| compare_least(tally, &mut random, run))
}

/// A run, of which the fewest records that show a difference are told.
fn compare_least(tally: &mut Tally, random: &mut Random, run: &[u8]) -> Compared {
    let before = random.clone();
    compare_any(tally, random, run).map_err(|difference| {
        let compare = |run: &[u8]| compare_any(&mut Tally::default(), &mut before.clone(), run);
        least_run(difference, run, compare).1
    })
}

/// Runs of known standing: none, kind 26 alone, torn, twice, late, below -1 and
/// of a wrong body, and records of which the last one ends early.
pub fn compare_named_conversions(tally: &mut Tally) -> Compared {
    let level = [0x0B, 0, 9, 1, 0, 1, b'a', 2, 0, 2, 0, 1];
    let offset = encoded_offset(0);
    let mut runs = vec![Vec::new(), level.to_vec(), level.repeat(3)];
    for end in 0..=offset.len() {
        runs.push(offset[..end].to_vec());
        runs.push([&level, &offset[..end]].concat());
        runs.push([&offset[..end], &level].concat());
    }
    for end in 0..=level.len() {
        runs.push([&level, &level[..end]].concat());
        runs.push([&offset[..], &level, &level[..end]].concat());
    }
    let others = OFFSETS.map(encoded_offset).into_iter();
    for other in others.chain(wrong_bodies()) {
        runs.push([&other[..], &level].concat());
        runs.push([&level, &other[..]].concat());
        runs.push([&offset[..], &level, &other].concat());
    }
    let mut random = Random::new(0);
    runs.iter()
        .try_for_each(|run| compare_any(tally, &mut random, run))
}

/// Kind 26 without a field, with another tag, of seven and nine bytes, and with
/// its field twice.
fn wrong_bodies() -> [Vec<u8>; 5] {
    let field = wire::field(1, &[0; 8]);
    let bodies = [
        Vec::new(),
        wire::field(2, &[0; 8]),
        wire::field(1, &[0; 7]),
        wire::field(1, &[0; 9]),
        field.repeat(2),
    ];
    bodies.map(|body| wire::field(LOG_OFFSET, &body))
}

/// The image's snapshot without its offset, and with it again.
fn compare_snapshot(tally: &mut Tally, random: &mut Random, course: &Course) -> Compared {
    let snapshot = course.expected_snapshot();
    let mut new = random.bytes(snapshot.len());
    let answer = crate::snapshot(&course.buffer, &mut new);
    if answer != Ok(new.len()) || new != snapshot {
        return Err(format!("Snapshot says {answer:?}, or other bytes"));
    }
    let mut old = vec![0; new.len()];
    let answer = without_offset(&new, &mut old);
    let Ok((written, offset)) = answer else {
        return Err(format!("a snapshot is refused: {answer:?}"));
    };
    old.truncate(written as usize);
    let mut again = vec![0; new.len()];
    let answer = with_offset(&old, offset, &mut again);
    tally.count("a snapshot there and back", answer.is_ok());
    if answer != Ok(new.len() as u64) || again != new || offset != course.reference.offset {
        return Err(format!("a snapshot comes back as {answer:?} at {offset}"));
    }
    compare_any(tally, random, &new)?;
    compare_any(tally, random, &old)
}

/// A run given to both operations, whichever form it has: at all the offsets,
/// into outputs that are long enough, just so, and one byte too short.
fn compare_any(tally: &mut Tally, random: &mut Random, run: &[u8]) -> Compared {
    let offset = random.bits().cast_signed();
    for offset in OFFSETS.into_iter().chain([offset]) {
        compare_with(tally, random, run, offset)
            .map_err(|difference| format!("{difference}\nat {offset} of {}", hex(run)))?;
    }
    compare_without(tally, random, run)
        .map_err(|difference| format!("{difference}\nof {}", hex(run)))
}

fn compare_with(tally: &mut Tally, random: &mut Random, run: &[u8], offset: i64) -> Compared {
    let expected = new_form(run, offset);
    for room in rooms(random, run.len() + encoded_offset(offset).len()) {
        let mut out = random.bytes(room);
        let expected = written(&expected, &out);
        let answer = with_offset(run, offset, &mut out);
        let answer = answer.map(|written| (written, out.clone()));
        held(tally, "with an offset", &answer, &expected)?;
    }
    Ok(())
}

fn compare_without(tally: &mut Tally, random: &mut Random, run: &[u8]) -> Compared {
    let expected = old_form(run);
    let (old, offset) = match &expected {
        Ok((old, offset)) => (Ok(old.clone()), Some(*offset)),
        Err(refusal) => (Err(*refusal), None),
    };
    for room in rooms(random, run.len().saturating_sub(encoded_offset(0).len())) {
        let mut out = random.bytes(room);
        let expected = written(&old, &out);
        let answer = without_offset(run, &mut out);
        if let (Ok((_, said)), Some(offset)) = (answer, offset)
            && said != offset
        {
            return Err(format!("the offset beside it is {said}, expected {offset}"));
        }
        let answer = answer.map(|(written, _)| (written, out.clone()));
        held(tally, "without an offset", &answer, &expected)?;
    }
    Ok(())
}

/// What an operation says and leaves: the bytes written and the whole output. A
/// refusal leaves the output.
type Ended = Result<(u64, Vec<u8>), Refusal>;

fn written(expected: &Result<Vec<u8>, Refusal>, out: &[u8]) -> Ended {
    let bytes = expected.as_ref().map_err(|refusal| *refusal)?;
    let rest = out.get(bytes.len()..).ok_or((TOO_SHORT, None))?;
    Ok((bytes.len() as u64, [bytes, rest].concat()))
}

fn held(tally: &mut Tally, what: &'static str, answer: &Ended, expected: &Ended) -> Compared {
    tally.count(
        what,
        expected.as_ref().map_or_else(|refusal| refusal.0, |_| 0),
    );
    match answer == expected {
        true => Ok(()),
        false => Err(format!("{what}: {answer:?}, expected is {expected:?}")),
    }
}

/// The new form of a run of the old one: an offset below -1 is refused first,
/// and then the first record that the log does not know.
pub fn new_form(run: &[u8], offset: i64) -> Result<Vec<u8>, Refusal> {
    if offset < NO_RECORD {
        return Err((OFFSET_TOO_LOW, None));
    }
    all_read(run, 0, read_logged)?;
    Ok(starting(offset, run))
}

/// The old form of a run of the new one, and the offset.
pub fn old_form(run: &[u8]) -> Result<(Vec<u8>, i64), Refusal> {
    let (offset, first) = start(run).map_err(|number| (number, Some(0)))?;
    all_read(run, first, |rest| match (read(rest)?, rest[0]) {
        (_, LOG_OFFSET) => Err(MISPLACED_OFFSET),
        (used, _) => Ok(used),
    })?;
    Ok((run[first..].to_vec(), offset))
}

/// The records from a place on are all taken, or the first refusal and its
/// place.
fn all_read(
    run: &[u8],
    from: usize,
    take: impl Fn(&[u8]) -> Result<usize, u8>,
) -> Result<(), Refusal> {
    let mut place = from;
    while place < run.len() {
        place += take(&run[place..]).map_err(|number| (number, Some(place as u64)))?;
    }
    Ok(())
}
