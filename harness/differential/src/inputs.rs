//! Inputs drawn from a seed: records, good and damaged.

use oracle::generate::{Generator, Knobs};
use wire::{Lists, Random, damaged, encoded, encoded_offset};

/// The records of one generated history.
const HISTORY: usize = 200;
/// The damaged copies of each record, each of them damaged again by the next.
const DAMAGED: usize = 7;

/// The log offsets beside each history.
const OFFSETS: usize = 8;

/// Byte strings without end: each record of a generated history, and log offsets
/// beside it, then damaged copies of it.
pub struct Inputs {
    seed: u64,
    random: Random,
    waiting: Vec<Vec<u8>>,
}

impl Inputs {
    pub fn new(seed: u64) -> Self {
        let random = Random::beside(seed);
        Self {
            seed,
            random,
            waiting: Vec::new(),
        }
    }

    fn refill(&mut self) {
        let knobs = Knobs {
            extreme: 4,
            old_names: true,
            ..Knobs::default()
        };
        let history = Generator::new(self.seed, knobs).history(HISTORY);
        let mut good: Vec<Vec<u8>> = history.iter().map(encoded).collect();
        good.extend((0..OFFSETS).map(|_| encoded_offset(self.random.bits() as i64)));
        for mut bytes in good {
            for _ in 0..DAMAGED {
                let next = damaged(&mut self.random, &bytes);
                self.waiting.push(bytes);
                bytes = next;
            }
            self.waiting.push(bytes);
        }
        self.seed += 1;
    }

    pub fn draw(&mut self) -> Vec<u8> {
        if self.waiting.is_empty() {
            self.refill();
        }
        self.waiting.pop().expect("a history has records")
    }

    /// Write's input from a record's bytes: its fields as lists, in some cases
    /// with a length or a value byte too many or too few; and an output that is
    /// about as long as the record.
    pub fn lists(&mut self, record: &[u8]) -> (Lists, Vec<u8>) {
        let mut lists = Lists::of(record);
        match self.random.below(12) {
            0 => drop(lists.lengths.pop()),
            1 => lists.lengths.push(0),
            2 => drop(lists.values.pop()),
            3 => lists.values.push(0),
            4 => drop(lists.tags.pop()),
            _ => {}
        }
        let written = 3 + 3 * lists.tags.len() + lists.values.len();
        let room = (written + self.random.below(6)).saturating_sub(2);
        (lists, self.random.bytes(room))
    }
}
