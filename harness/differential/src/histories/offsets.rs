//! Apply at given log offsets, from one end of i64 to the other, and records of
//! kind 26, which Apply and Validate do not know.

use oracle::facts::build::{feature_level, offset_advance, producer_ids};
use oracle::image::FIXED_ROOM;
use oracle::verdict::{ACCEPTED, NO_OFFSET, NO_ROOM, NOT_LATER};
use wire::{NO_RECORD, PAST_THE_END, Random, UNKNOWN_KIND, WRONG_FIELD, encoded, encoded_offset};

use super::course::Course;
use super::{expect, told};
use crate::images::{Compared, Tally};
use crate::read;

/// A log offset, a record, and Apply's number.
type Step = (i64, Vec<u8>, u8);

/// Room for a feature level and a partition's offset, each with a name of one
/// byte, and for no byte more.
const CAPACITY: usize = FIXED_ROOM + 12 + 25;

/// Histories of known numbers, each with a cut behind every step and without.
pub fn compare_offsets(tally: &mut Tally) -> Compared {
    for history in [ends(), kept(), refused(), last()] {
        for cut in [false, true] {
            compare(tally, &history, cut)?;
        }
    }
    compare_kind(tally)
}

fn compare(tally: &mut Tally, history: &[Step], cut: bool) -> Compared {
    let mut random = Random::new(0);
    let mut course = Course::open(tally, CAPACITY)?;
    for (offset, input, number) in history {
        let tell = |difference| format!("{difference}\nat offset {offset} of {}", told(input));
        let said = course.apply_at(tally, *offset, input).map_err(tell)?;
        if said != *number {
            return Err(tell(format!("Apply says {said}, {number} is known")));
        }
        if cut {
            course.cut(tally, &mut random).map_err(tell)?;
        }
    }
    Ok(())
}

fn level() -> Vec<u8> {
    encoded(&feature_level("a", 1))
}

/// A record that Apply takes without effect.
fn without_effect() -> Vec<u8> {
    encoded(&producer_ids(1, 0, 0))
}

/// From a fresh image: no offset up to -1 is later. Then steps of one and of
/// more, up to the last one, after which none is.
fn ends() -> Vec<Step> {
    let mut steps = Vec::new();
    for offset in [i64::MIN, i64::MIN + 1, -256, -2, NO_RECORD] {
        steps.push((offset, level(), NOT_LATER));
    }
    for offset in [0, 1, 255, 256, 1 << 32, i64::MAX - 1] {
        steps.push((offset, level(), ACCEPTED));
        for earlier in [offset, offset - 1, 0, NO_RECORD, i64::MIN] {
            steps.push((earlier, level(), NOT_LATER));
        }
    }
    steps.push((i64::MAX, level(), ACCEPTED));
    for offset in [i64::MAX, i64::MAX - 1, 0, NO_RECORD, i64::MIN] {
        steps.push((offset, level(), NOT_LATER));
        steps.push((offset, without_effect(), NOT_LATER));
    }
    steps
}

/// A record without effect moves the offset; one that is refused by 17 or 18
/// does not, so that the next may have the same.
fn kept() -> Vec<Step> {
    let advance = |count| encoded(&offset_advance("p", 0, count));
    let heavy = encoded(&feature_level("ab", 1));
    vec![
        (3, without_effect(), ACCEPTED),
        (3, level(), NOT_LATER),
        (4, advance(i64::MAX), ACCEPTED),
        (5, advance(1), NO_OFFSET),
        (5, heavy.clone(), NO_ROOM),
        (4, advance(1), NOT_LATER),
        (4, heavy.clone(), NOT_LATER),
        (5, level(), ACCEPTED),
        (6, heavy, NO_ROOM),
        (6, without_effect(), ACCEPTED),
        (6, without_effect(), NOT_LATER),
    ]
}

/// What Read refuses comes before 21, also at an offset that is not later.
fn refused() -> Vec<Step> {
    let torn = level()[..5].to_vec();
    let wrong = vec![11, 0, 0];
    let mut steps = Vec::new();
    for offset in [i64::MIN, NO_RECORD, 0, i64::MAX] {
        steps.push((offset, Vec::new(), PAST_THE_END));
        steps.push((offset, torn.clone(), PAST_THE_END));
        steps.push((offset, vec![27, 0, 0], UNKNOWN_KIND));
        steps.push((offset, encoded_offset(i64::MAX), UNKNOWN_KIND));
        steps.push((offset, encoded_offset(-2), UNKNOWN_KIND));
        steps.push((offset, wrong.clone(), WRONG_FIELD));
    }
    steps.push((0, level(), ACCEPTED));
    steps
}

/// The last offset at once.
fn last() -> Vec<Step> {
    vec![
        (i64::MAX, without_effect(), ACCEPTED),
        (i64::MAX, level(), NOT_LATER),
        (i64::MIN, level(), NOT_LATER),
    ]
}

/// Kind 26 with right bodies and wrong ones: 3 to Validate and Apply; Read knows
/// it, and says 4 to the wrong ones.
fn compare_kind(tally: &mut Tally) -> Compared {
    let right = [NO_RECORD, 0, i64::MAX].map(encoded_offset);
    let wrong = [
        encoded_offset(-2),
        encoded_offset(i64::MIN),
        vec![26, 0, 0],
        vec![26, 0, 3, 1, 0, 0],
        vec![26, 0, 3, 2, 0, 0],
    ];
    let right = right.map(|record| (record, ACCEPTED)).into_iter();
    let wrong = wrong.map(|record| (record, WRONG_FIELD));
    for (record, number) in right.chain(wrong) {
        let said = read(&record).err().unwrap_or(ACCEPTED);
        expect(tally, "Read of kind 26", said, number)?;
        let mut course = Course::open(tally, FIXED_ROOM)?;
        let verdict = course.take(tally, &record, false)?;
        expect(tally, "Validate of kind 26", verdict.validate, UNKNOWN_KIND)?;
        let apply = verdict.apply.unwrap_or(ACCEPTED);
        expect(tally, "Apply of kind 26", apply, UNKNOWN_KIND)?;
    }
    Ok(())
}
