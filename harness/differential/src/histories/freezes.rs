//! The freezes of lists of names on the images of histories: each index by the
//! reference's `topic_freeze` of the name, how many were read by 02's sentence.

mod asked;
mod lists;
mod named;
mod short;

pub use named::compare_named_freezes;
pub use short::compare_short_freezes;

use oracle::facts::build::{freeze, thaw};
use oracle::freeze_list::list;
use oracle::generate::Knobs;
use oracle::image::{FIXED_ROOM, MOST_CAPACITY};
use oracle::shrink::least;
use wire::choices::PATTERN_TYPES;
use wire::{Random, encoded};

use super::History;
use super::course::Course;
use super::drawn::Drawn;
use super::no_image::near;
use crate::images::{Compared, Tally, knobs};
use asked::{Asked, compare_no_image};
use lists::{damaged, drawn, ending, near_scopes, parts, simpler, word};

/// The weight of freezes among the kinds, and their place there.
const FREEZES: u64 = 60;
const FREEZE_PLACE: usize = 17;
/// One history in so many has many words, the others few.
const MANY: u64 = 16;
const MANY_WORDS: usize = 400;
const FEW_WORDS: usize = 40;
/// The most bytes beside the fixed room of an image where room may run out.
const SCARCE: usize = 6_000;
/// One step in so many is followed by lists.
const HELD: usize = 8;
/// How many lists end in a name near a scope, and how many are drawn.
const ENDINGS: usize = 30;
const DRAWS: usize = 12;
/// The steps of a search for the least list: one is made within that for the
/// least history.
const STEPS: usize = 2_000;

/// Compares lists behind some steps of the history of a seed, and at its end.
pub fn compare_freezes(tally: &mut Tally, seed: u64) -> Compared {
    let mut random = Random::new(seed ^ 0x0F4);
    let drawn = Drawn::by(&mut random, seed, frozen(seed));
    let words = match seed.is_multiple_of(MANY) {
        true => MANY_WORDS,
        false => random.below(FEW_WORDS),
    };
    let scarce = FIXED_ROOM + random.below(SCARCE);
    let history = History {
        capacity: random.pick(&[MOST_CAPACITY, scarce]),
        validated: drawn.validated,
        inputs: with_words(&mut random, drawn.inputs, words),
    };
    let now_and_then =
        |tally: &mut Tally, random: &mut Random, course: &Course| match random.below(HELD) {
            0 => compare_lists(tally, random, course),
            _ => Ok(()),
        };
    let course = history.along(tally, &mut random, now_and_then)?;
    let before = random.clone();
    compare_lists(tally, &mut random, &course).map_err(|difference| {
        history.least(difference, |course| {
            compare_lists(&mut Tally::default(), &mut before.clone(), course)
        })
    })
}

/// A history's knobs, with freezes drawn often.
fn frozen(seed: u64) -> Knobs {
    let mut knobs = knobs(seed);
    knobs.weights[FREEZE_PLACE] = FREEZES;
    knobs
}

/// Freezes and thaws of words that begin each other, anywhere among the inputs.
fn with_words(random: &mut Random, mut inputs: Vec<Vec<u8>>, words: usize) -> Vec<Vec<u8>> {
    for _ in 0..words {
        let (scope, pattern) = (word(random), random.pick(&PATTERN_TYPES));
        let record = match random.below(5) {
            0 => thaw(&scope, pattern),
            _ => freeze(&scope, pattern),
        };
        inputs.insert(random.below(inputs.len() + 1), encoded(&record));
    }
    inputs
}

/// Lists that end in names near the scopes, drawn and damaged ones, and these on
/// a buffer that is no image.
fn compare_lists(tally: &mut Tally, random: &mut Random, course: &Course) -> Compared {
    let image = &course.reference.image;
    let asked = Asked::new(&course.buffer, image);
    let names = near_scopes(image);
    for _ in 0..ENDINGS {
        let names = ending(random, &names);
        let list = list(&names);
        compare_least(random, &list, |random, list| {
            asked.compare(tally, random, list)
        })?;
    }
    for _ in 0..DRAWS {
        let names = drawn(random, &names);
        let lists = [list(&names), damaged(random, &names)];
        for list in &lists {
            compare_least(random, list, |random, list| {
                asked.compare(tally, random, list)
            })?;
        }
        if let Some(buffer) = near(random, &course.buffer) {
            compare_no_image(tally, random, &buffer, &lists)?;
        }
    }
    Ok(())
}

/// A list, of which the fewest and shortest names that show a difference are told.
fn compare_least(
    random: &mut Random,
    list: &[u8],
    mut compare: impl FnMut(&mut Random, &[u8]) -> Compared,
) -> Compared {
    let before = random.clone();
    compare(random, list).map_err(|difference| {
        let compare = |parts: &[Vec<u8>]| compare(&mut before.clone(), &parts.concat());
        let simpler = |part: &Vec<u8>| simpler(part);
        least(STEPS, difference, &parts(list), simpler, compare).1
    })
}
