//! Inputs drawn from a seed, good and damaged.

use wire::kafka::MESSAGES;
use wire::{Random, damaged};

use super::Input::{self, Ours, Theirs};
use super::frames::{frame, record};

/// So many of each are drawn at a time, and one record of Kafka's and of ours
/// with every cut and with every byte changed.
const FRAMES: usize = 100;
const RECORDS: usize = 60;
/// Records of drawn histories, and damaged copies of them.
const OF_HISTORIES: usize = 60;
/// At most so many bytes stand after a record.
const BEHIND: usize = 8;
/// At most so many bytes of any kind.
const ANY: usize = 60;

/// Inputs without end.
pub struct Inputs {
    random: Random,
    histories: crate::Inputs,
    waiting: Vec<Input>,
}

impl Inputs {
    pub fn new(seed: u64) -> Self {
        Self {
            random: Random::new(seed),
            histories: crate::Inputs::new(seed),
            waiting: Vec::new(),
        }
    }

    pub fn draw(&mut self) -> Input {
        if self.waiting.is_empty() {
            self.refill();
        }
        self.waiting.pop().expect("there are always more")
    }

    fn refill(&mut self) {
        let random = &mut self.random;
        for place in 0..FRAMES {
            let frame = match place % 10 {
                0 => any(random),
                1 => {
                    let good = frame(random);
                    damaged(random, &good)
                }
                _ => frame(random),
            };
            self.waiting.push(Theirs(followed(random, frame)));
        }
        for _ in 0..RECORDS {
            let record = record(random);
            self.waiting.push(Ours(followed(random, record)));
        }
        for _ in 0..OF_HISTORIES {
            self.waiting.push(Ours(self.histories.draw()));
        }
        let (theirs, ours) = (frame(random), record(random));
        self.waiting.extend(near(random, &theirs).map(Theirs));
        self.waiting.extend(near(random, &ours).map(Ours));
    }
}

/// Any bytes, mostly behind the head of a message.
fn any(random: &mut Random) -> Vec<u8> {
    let count = random.below(ANY);
    let bytes = random.bytes(count);
    let head = [1, random.pick(&MESSAGES).key() as u8, 0];
    [&head[..random.below(4)], &bytes].concat()
}

/// A record, at times with bytes after it.
fn followed(random: &mut Random, mut record: Vec<u8>) -> Vec<u8> {
    let count = random.below(BEHIND) * random.below(2);
    record.extend(random.bytes(count));
    record
}

/// Every cut of a record, and the record with each of its bytes changed.
fn near<'a>(random: &'a mut Random, record: &'a [u8]) -> impl Iterator<Item = Vec<u8>> + 'a {
    let cuts = (0..record.len()).map(|end| record[..end].to_vec());
    let changed = (0..record.len()).map(|place| {
        let any = random.byte() | 4;
        let mut bytes = record.to_vec();
        bytes[place] ^= random.pick(&[1, 2, 0x80, 0xff, any]);
        bytes
    });
    cuts.chain(changed)
}
