//! Compares reading and writing of Kafka's own record bytes with the harness's
//! codec, on records with known answers and on drawn ones.

mod calls;
mod drawn;
mod frames;
mod named;

pub use named::{compare_bytes, compare_named};

use oracle::shrink::least_input;
use wire::Random;

use crate::images::{Compared, Tally};
use calls::{compare_read, compare_write};
use drawn::Inputs;

/// One record's bytes, or what is left of them: Kafka's are read, ours written.
enum Input {
    Theirs(Vec<u8>),
    Ours(Vec<u8>),
}

impl Input {
    fn compare(&self, tally: &mut Tally, random: &mut Random) -> Compared {
        match self {
            Self::Theirs(bytes) => compare_read(tally, random, bytes),
            Self::Ours(bytes) => compare_write(tally, bytes),
        }
    }

    /// The difference of the fewest bytes that show one.
    fn least(&self, difference: String, before: &Random) -> String {
        let (bytes, again): (_, fn(Vec<u8>) -> Self) = match self {
            Self::Theirs(bytes) => (bytes, Self::Theirs),
            Self::Ours(bytes) => (bytes, Self::Ours),
        };
        let compare = |bytes: &[u8]| {
            again(bytes.to_vec()).compare(&mut Tally::default(), &mut before.clone())
        };
        least_input(difference, bytes, compare).1
    }
}

/// Compares so many inputs of a seed.
pub fn compare_drawn(tally: &mut Tally, count: u64, seed: u64) -> Compared {
    let mut random = Random::beside(seed);
    let mut inputs = Inputs::new(seed);
    (0..count).try_for_each(|_| {
        let (input, before) = (inputs.draw(), random.clone());
        input
            .compare(tally, &mut random)
            .map_err(|difference| input.least(difference, &before))
    })
}
