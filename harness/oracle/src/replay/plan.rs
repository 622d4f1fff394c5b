//! How the stored histories are drawn.

use krabka_metadata::MetadataImage;
use wire::{Random, damaged, encoded, encoded_offset};

use super::run::Run;
use super::{STEP, STEP_ALWAYS};
use crate::facts::build::{partition_record, topic};
use crate::generate::{Generator, Knobs};
use crate::held::is_held;
use crate::image::{FIXED_ROOM, MOST_CAPACITY, weight};

/// The first history's seed; from this one the answers have every number.
const SEED: u64 = 300;
/// Longer records are drawn again, so that the file stays small.
const LONGEST: usize = 340;
/// Of the records of some histories one in so many is damaged.
const ONE_IN: usize = 7;

/// How the history of a number is drawn.
pub struct Plan {
    pub number: u64,
    steps: usize,
    knobs: Knobs,
    damaged: bool,
}

impl Plan {
    /// One history in three applies what Validate refuses too, old names among it. Of nine one is mostly of offsets, many at the ends of i64, and one of proposals.
    pub fn of(number: u64) -> Self {
        let mut knobs = Knobs {
            extreme: [0, 1, 2, 4][(number / 3 % 4) as usize],
            validated: !number.is_multiple_of(3),
            old_names: number.is_multiple_of(3),
            ..Knobs::default()
        };
        match number % 9 {
            4 => {
                knobs.extreme = 15;
                knobs.weights[14] = 150;
            }
            5 => knobs.weights[18] = 150,
            _ => {}
        }
        Self {
            number,
            steps: 10 + (number * 29 % 47) as usize,
            knobs,
            damaged: number % 5 == 2,
        }
    }

    /// After how many steps a cut comes: after each, after some, or never.
    pub fn cut_after(&self) -> usize {
        [usize::MAX, 7, 1, 13][(self.number / 2 % 4) as usize]
    }

    pub fn operation(&self) -> u8 {
        match self.knobs.validated {
            true => STEP,
            false => STEP_ALWAYS,
        }
    }

    /// The records' bytes, drawn with a view of an image that has room.
    pub fn inputs(&self) -> Vec<Vec<u8>> {
        let mut generator = Generator::new(SEED + self.number, self.knobs);
        let mut random = Random::beside(SEED + self.number);
        let mut run = Run::at(MOST_CAPACITY);
        let mut inputs = Vec::with_capacity(self.steps);
        for place in 1..=self.steps {
            let mut input = next(&mut generator, &run.image);
            if self.damaged && place.is_multiple_of(ONE_IN) {
                input = damaged(&mut random, &input);
            }
            if !is_held(&input) {
                continue;
            }
            run.step(self.operation(), inputs.len() as i64, &input);
            inputs.push(input);
        }
        if self.damaged {
            inputs.extend(refused());
        }
        inputs
    }

    /// Much room, some, just what the history needs, one byte less, and less; once none for an image.
    pub fn capacity(&self, inputs: &[Vec<u8>]) -> usize {
        let needed = self.needed(inputs);
        match self.number {
            7 => FIXED_ROOM - 1,
            8 => MOST_CAPACITY + 1,
            9 => 50,
            10 => FIXED_ROOM,
            11 => FIXED_ROOM + 11,
            number => [
                MOST_CAPACITY,
                needed,
                needed - 1,
                needed * 3 / 4,
                needed / 2,
                4_096,
            ][(number % 6) as usize]
                .max(FIXED_ROOM),
        }
    }

    /// The most that the contents weigh along the history.
    fn needed(&self, inputs: &[Vec<u8>]) -> usize {
        let mut run = Run::at(MOST_CAPACITY);
        let weights = (0..).zip(inputs).map(|(offset, input)| {
            run.step(self.operation(), offset, input);
            weight(&run.observed())
        });
        weights.max().unwrap_or(FIXED_ROOM)
    }
}

/// The bytes of a next record that is not too long.
fn next(generator: &mut Generator, image: &MetadataImage) -> Vec<u8> {
    loop {
        let record = generator.record(image);
        let bytes = encoded(&record);
        if bytes.len() <= LONGEST {
            return bytes;
        }
    }
}

/// No bytes, 2; unknown kinds, 3, and so is a log offset, with a right body and with wrong ones; a DeleteTopic without its name, 4, and with one that
/// is too long, 5; a partition with a replica twice, 20; an unlawful topic name, 24.
fn refused() -> [Vec<u8>; 9] {
    let long = [&[4, 1, 3, 1, 1, 0], [b'n'; 256].as_slice()].concat();
    let repeated = encoded(&partition_record("p", 0, &[1, 2, 1]));
    let unlawful = encoded(&topic("Smith/2", 1, 0, 1));
    [
        vec![],
        vec![27, 0, 0],
        vec![26, 0, 0],
        encoded_offset(1 << 40),
        encoded_offset(-2),
        vec![4, 0, 0],
        long,
        repeated,
        unlawful,
    ]
}
