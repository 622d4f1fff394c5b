//! Two runs as one list of records, of both runs or of one of them.

use oracle::shrink::{pieces, simpler_held};

use super::pairs::Pair;

#[derive(Clone)]
pub struct Shared {
    record: Vec<u8>,
    /// Whether the one has it, and the other.
    of: [bool; 2],
}

impl Shared {
    pub fn simpler(&self) -> Vec<Self> {
        let records = simpler_held(&self.record).into_iter();
        records
            .map(|record| Self {
                record,
                of: self.of,
            })
            .collect()
    }
}

/// What both begin with, what each has then by itself, and what both end with.
pub fn shared(pair: &Pair) -> Vec<Shared> {
    let [one, other] = [&pair.one, &pair.other].map(|run| pieces(run));
    let begun = one.iter().zip(&other);
    let begun = begun.take_while(|(one, other)| one == other).count();
    let [first, second] = [&one[begun..], &other[begun..]];
    let ended = first.iter().rev().zip(second.iter().rev());
    let ended = ended.take_while(|(one, other)| one == other).count();
    let (own, end) = first.split_at(first.len() - ended);
    let others = &second[..second.len() - ended];
    [
        of(&one[..begun], [true, true]),
        of(own, [true, false]),
        of(others, [false, true]),
        of(end, [true, true]),
    ]
    .concat()
}

fn of(records: &[Vec<u8>], of: [bool; 2]) -> Vec<Shared> {
    let records = records.iter().cloned();
    records.map(|record| Shared { record, of }).collect()
}

/// The one's run, by 0, or the other's, by 1.
pub fn run_of(shared: &[Shared], which: usize) -> Vec<u8> {
    let own = shared.iter().filter(|shared| shared.of[which]);
    own.flat_map(|shared| shared.record.clone()).collect()
}
