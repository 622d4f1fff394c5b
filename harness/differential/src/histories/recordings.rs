//! Where two recordings part, held to the reference's course of each run.

mod named;
mod pairs;
mod shared;

pub use named::compare_named_recordings;
pub use pairs::without_effect;

use oracle::held::is_held;
use oracle::recordings::{Course, Parting, Standing, parting};
use oracle::shrink::{self, STEPS};
use wire::{Random, hex};

use super::drawn::capacities;
use crate::compare;
use crate::images::{Compared, Tally, shown};
use pairs::{Pair, drawn_records, pairs};
use shared::{Shared, run_of, shared};

/// What both buffers hold before a call: nothing of it counts.
const DIRT: [u8; 2] = [0x5a, 0xa5];
/// What a place of the lent list holds before a call: no run has so many records.
const NOT_SET: u64 = u64::MAX - 77;

/// Compares pairs of recordings that come of the history of a seed, at several
/// capacities.
pub fn compare_recordings(tally: &mut Tally, seed: u64) -> Compared {
    let mut random = Random::new(seed ^ 0x00B1_4A55);
    let records = drawn_records(&mut random, seed);
    let reached = Course::of(&records.concat()).heaviest();
    let capacities = capacities(&mut random, reached);
    for pair in pairs(&mut random, &records) {
        compare_pair(tally, &capacities, &pair)
            .map_err(|difference| least(difference, &capacities, &pair))?;
    }
    Ok(())
}

/// The difference of the fewest records of both runs that show one. That they
/// agree is known of the drawn ones alone.
fn least(difference: String, capacities: &[usize], pair: &Pair) -> String {
    let compare = |shared: &[Shared]| {
        let other = Pair {
            what: pair.what,
            one: run_of(shared, 0),
            other: run_of(shared, 1),
            agrees: false,
        };
        match is_held(&other.one) && is_held(&other.other) {
            true => compare_pair(&mut Tally::default(), capacities, &other),
            false => Ok(()),
        }
    };
    shrink::least(STEPS, difference, &shared(pair), Shared::simpler, compare).1
}

/// Compares the two both ways round at each capacity.
fn compare_pair(tally: &mut Tally, capacities: &[usize], pair: &Pair) -> Compared {
    let Pair { what, .. } = pair;
    let [one, other] = [&pair.one, &pair.other].map(|run| Recording::of(run));
    for &capacity in capacities {
        for (one, other) in [(&one, &other), (&other, &one)] {
            let expected = parting(&one.course, &other.course, capacity);
            tally.count(what, said(&expected));
            if pair.agrees && expected.parts() {
                return Err(format!("{what}: the reference's runs part"));
            }
            compare_runs(capacity, [one, other], &expected, &mut [NOT_SET])
                .map_err(|difference| format!("{what}, at capacity {capacity}: {difference}"))?;
        }
    }
    Ok(())
}

/// A run, and what the reference makes of it.
struct Recording<'a> {
    run: &'a [u8],
    course: Course,
}

impl<'a> Recording<'a> {
    fn of(run: &'a [u8]) -> Self {
        let course = Course::of(run);
        Self { run, course }
    }
}

/// Why they part, or how they agree; the same both ways round.
fn said(parting: &Parting) -> String {
    let mut told = parting.standings.map(|standing| match standing {
        Standing::GoesOn => "goes on".to_owned(),
        Standing::Ended => "ended".to_owned(),
        Standing::Refused(number) => number.to_string(),
    });
    told.sort();
    let [one, other] = told;
    match parting.parts() {
        true if !parting.same => "other snapshots".to_owned(),
        true => format!("{one} beside {other}"),
        false => format!("agree, {one}"),
    }
}

/// The answer, the count in the first place of the list, and both buffers.
fn compare_runs(
    capacity: usize,
    recordings: [&Recording; 2],
    expected: &Parting,
    value: &mut [u64],
) -> Compared {
    let (parts, count) = (usize::from(expected.parts()), expected.count);
    let mut list = value.to_vec();
    if let Some(place) = list.first_mut() {
        *place = count as u64;
    }
    let images = recordings.map(|recording| recording.course.image(count, capacity));
    let [one, other] = recordings.map(|recording| recording.run);
    let mut buffers = DIRT.map(|byte| vec![byte; capacity]);
    let [first, second] = &mut buffers;
    let answer = compare(first, second, one, other, value);
    if answer == Ok(parts) && value == list && buffers == images {
        return Ok(());
    }
    let [first, second] = buffers.map(|buffer| shown(&buffer));
    let [image, beside] = images.map(|image| shown(&image));
    let (one, other) = (hex(one), hex(other));
    Err(format!(
        "{answer:?} and {value:?}, expected is {parts} and {list:?}\n\
         the buffers are {first}\nand {second}\nexpected are {image}\nand {beside}\n\
         of {one}\nand {other}"
    ))
}
