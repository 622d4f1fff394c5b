//! Compares Validate, Apply, Snapshot and Restore with the reference, step by
//! step along whole histories, uncut and cut, and along the passes of a
//! downgrade. A step is held to the number and to every byte of the buffer.

mod conversions;
mod course;
mod cuts;
mod drawn;
mod freezes;
mod logs;
mod no_image;
mod offsets;
mod passes;
mod premises;
mod quotas;
mod recordings;
mod reference;
mod restart;
mod runs;
mod short;
mod views;

pub use conversions::{compare_conversions, compare_named_conversions, new_form, old_form};
pub use cuts::compare_cuts;
pub use drawn::compare_drawn;
pub use freezes::{compare_freezes, compare_named_freezes, compare_short_freezes};
pub use logs::{compare_logs, compare_named_logs};
pub use no_image::compare_no_image;
pub use offsets::compare_offsets;
pub use passes::{compare_named_passes, compare_passes};
pub use quotas::{compare_named_quotas, compare_quotas};
pub(crate) use recordings::without_effect;
pub use recordings::{compare_named_recordings, compare_recordings};
pub use short::{compare_drawn_numbers, compare_named_numbers, compare_short, compare_short_ends};
pub use views::{compare_views, listed};

use course::Course;
use oracle::shrink::least_records;
use wire::Random;

use crate::images::{Compared, Tally};

/// The most bytes that an output is longer than it must be.
const LONGER: usize = 40;

/// What is given to a buffer after Open, one after the other.
struct History {
    capacity: usize,
    /// Whether a record that Validate refuses is kept from Apply. Apply does
    /// not validate, so it has an answer to such a record too.
    validated: bool,
    inputs: Vec<Vec<u8>>,
}

impl History {
    /// Compares all steps. A difference comes with the fewest of the inputs
    /// that show one.
    fn compare(&self, tally: &mut Tally) -> Result<Course, String> {
        self.run(tally)
            .map_err(|difference| self.least(difference, |_| Ok(())))
    }

    fn run(&self, tally: &mut Tally) -> Result<Course, String> {
        let mut course = Course::open(tally, self.capacity)?;
        for input in &self.inputs {
            course.take(tally, input, self.validated)?;
        }
        Ok(course)
    }

    /// Takes all steps, and compares behind each. A difference comes with the
    /// fewest of the inputs up to there that show one.
    fn along(
        &self,
        tally: &mut Tally,
        random: &mut Random,
        behind: impl Fn(&mut Tally, &mut Random, &Course) -> Compared,
    ) -> Result<Course, String> {
        let mut course = Course::open(&mut Tally::default(), self.capacity)?;
        for (place, input) in self.inputs.iter().enumerate() {
            let before = random.clone();
            course
                .take(&mut Tally::default(), input, self.validated)
                .and_then(|_| behind(tally, random, &course))
                .map_err(|difference| {
                    let so_far = self.with(self.inputs[..=place].to_vec());
                    so_far.least(difference, |course| {
                        behind(&mut Tally::default(), &mut before.clone(), course)
                    })
                })?;
        }
        Ok(course)
    }

    /// A difference in a step or in what is compared at the end, with the fewest
    /// and simplest of the inputs that show one.
    fn least(&self, difference: String, mut end: impl FnMut(&Course) -> Compared) -> String {
        let compare = |inputs: &[Vec<u8>]| {
            let history = self.with(inputs.to_vec());
            end(&history.run(&mut Tally::default())?)
        };
        let (inputs, difference) = least_records(difference, &self.inputs, compare);
        self.with(inputs).tell(&difference)
    }

    /// A difference, and what it comes after.
    fn tell(&self, difference: &str) -> String {
        let (capacity, validated) = (self.capacity, self.validated);
        let inputs = all_told(&self.inputs);
        format!(
            "{difference}\nat capacity {capacity}, validated: {validated}, after these:\n{inputs}"
        )
    }

    fn with(&self, inputs: Vec<Vec<u8>>) -> Self {
        Self { inputs, ..*self }
    }
}

pub(crate) fn all_told(inputs: &[Vec<u8>]) -> String {
    inputs.iter().map(|input| told(input)).collect()
}

/// An input in hex, and its record or why it has none.
fn told(input: &[u8]) -> String {
    let hex = wire::hex(input);
    match wire::decode(input) {
        Ok((record, _)) => format!("  {hex}\n    {record:?}\n"),
        Err(number) => format!("  {hex}\n    no record: {number}\n"),
    }
}

/// The numbers agree, or the difference in words.
fn expect(tally: &mut Tally, what: &'static str, number: u8, expected: u8) -> Compared {
    tally.count(what, number);
    match number == expected {
        true => Ok(()),
        false => Err(format!("{what} says {number}, expected is {expected}")),
    }
}

/// The lengths of outputs: one byte too few where there can be, as many as are
/// wanted, and more.
pub(crate) fn rooms(random: &mut Random, wanted: usize) -> [usize; 3] {
    [
        wanted.saturating_sub(1),
        wanted,
        wanted + random.below(LONGER),
    ]
}
