//! 02's numbers of short histories, in the harness's own words: a counter that is
//! wound on from one history to the next. The reference has no such numbers.

use wire::{OVER_A_LIMIT, read};

use crate::verdict::PAST_THE_LAST;

/// The most records, and the most of them in a history.
pub const MOST_RECORDS: usize = 8;
pub const LONGEST: usize = 4;

/// The history under a number of an input's records, or the refusal before the
/// one for the output.
pub fn history(input: &[u8], number: u64) -> Result<Vec<u8>, u8> {
    let records = records(input)?;
    let number = usize::try_from(number).unwrap_or(usize::MAX);
    let positions = Counter::new(records.len()).nth(number);
    Ok(chosen(&records, &positions.ok_or(PAST_THE_LAST)?))
}

/// The records of an input, or the first refusal.
pub fn records(input: &[u8]) -> Result<Vec<&[u8]>, u8> {
    let (mut records, mut rest) = (Vec::new(), input);
    while !rest.is_empty() {
        if records.len() == MOST_RECORDS {
            return Err(OVER_A_LIMIT);
        }
        let (record, after) = rest.split_at(read(rest)?);
        records.push(record);
        rest = after;
    }
    match records.is_empty() {
        true => Err(OVER_A_LIMIT),
        false => Ok(records),
    }
}

/// The bytes of the records at these positions.
pub fn chosen(records: &[impl AsRef<[u8]>], positions: &[usize]) -> Vec<u8> {
    let bytes = positions.iter().map(|position| records[*position].as_ref());
    bytes.collect::<Vec<&[u8]>>().concat()
}

/// The positions of the histories of so many records, one history after the
/// other.
pub struct Counter {
    records: usize,
    next: Option<Vec<usize>>,
}

impl Counter {
    pub fn new(records: usize) -> Self {
        Self {
            records,
            next: Some(Vec::new()),
        }
    }

    /// The rightmost position goes one on; one that has gone round begins again
    /// and takes the one to its left along. Where all have, there is one more.
    fn after(&self, mut positions: Vec<usize>) -> Option<Vec<usize>> {
        for place in (0..positions.len()).rev() {
            positions[place] += 1;
            if positions[place] < self.records {
                return Some(positions);
            }
            positions[place] = 0;
        }
        positions.push(0);
        Some(positions).filter(|positions| positions.len() <= LONGEST)
    }
}

impl Iterator for Counter {
    type Item = Vec<usize>;

    fn next(&mut self) -> Option<Vec<usize>> {
        let positions = self.next.take()?;
        self.next = self.after(positions.clone());
        Some(positions)
    }
}
