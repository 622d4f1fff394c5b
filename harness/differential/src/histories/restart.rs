//! Snapshot and Restore of a history's image.

use oracle::snapshot;
use oracle::verdict::NO_IMAGE;
use wire::{Random, TOO_SHORT};

use super::course::Course;
use super::expect;
use super::reference::{Reference, Stopped};
use crate::images::{Compared, Tally};
use crate::restore;

/// The most bytes that a snapshot's buffer is longer than it must be.
const LONGER: usize = 40;

impl Course {
    /// A cut: Snapshot into one buffer, Restore of what it wrote into another
    /// one. The reference goes on from `from_records`.
    pub fn cut(&mut self, tally: &mut Tally, random: &mut Random) -> Compared {
        let bytes = self.snapshot(tally, random)?;
        let mut buffer = random.bytes(self.buffer.len());
        let answer = restore(&mut buffer, &bytes);
        tally.count("Restore of a snapshot", 0);
        if answer != Ok(()) {
            return Err(format!("Restore of a snapshot says {answer:?}"));
        }
        self.go_on(buffer, self.reference.restarted())
    }

    /// The snapshot's bytes. One byte less has no room for them.
    fn snapshot(&self, tally: &mut Tally, random: &mut Random) -> Result<Vec<u8>, String> {
        let bytes = self.expected_snapshot();
        let mut short = random.bytes(bytes.len().saturating_sub(1));
        if short.len() < bytes.len() {
            let before = short.clone();
            let number = crate::snapshot(&self.buffer, &mut short).err().unwrap_or(0);
            expect(tally, "Snapshot", number, TOO_SHORT)?;
            if short != before {
                return Err("Snapshot changes an output that is too short".to_owned());
            }
        }
        let longer = random.below(LONGER);
        let mut out = random.bytes(bytes.len() + longer);
        let end = [&bytes, &out[bytes.len()..]].concat();
        let answer = crate::snapshot(&self.buffer, &mut out);
        tally.count("Snapshot", 0);
        match answer == Ok(bytes.len()) && out == end {
            true => Ok(bytes),
            false => Err(format!("Snapshot says {answer:?}, or other bytes")),
        }
    }

    /// The log offset, and the reference's `to_records` in 01's order.
    pub fn expected_snapshot(&self) -> Vec<u8> {
        snapshot::snapshot(&self.reference.observed())
    }
}

/// Restore of any bytes: the reference's image of the records before the first
/// refusal, and that refusal with its place.
pub fn compare_restore(
    tally: &mut Tally,
    random: &mut Random,
    capacity: usize,
    input: &[u8],
) -> Compared {
    let (reference, stopped) = Reference::restored(input, capacity);
    let mut buffer = random.bytes(capacity);
    let answer = restore(&mut buffer, input);
    let expected = stopped.map_or(Ok(()), refused);
    tally.count("Restore", stopped.map_or(0, |(number, _)| number));
    if answer != expected {
        return Err(format!("Restore says {answer:?}, expected is {expected:?}"));
    }
    Course::open(&mut Tally::default(), capacity)?.go_on(buffer, reference)
}

/// Restore into buffers that no image fits: 1 without a place, whatever the
/// input is, and nothing changes.
pub fn compare_no_capacity(tally: &mut Tally, random: &mut Random, input: &[u8]) -> Compared {
    for capacity in [0, 128, 143, 65_537] {
        let before = random.bytes(capacity);
        let mut buffer = before.clone();
        let answer = restore(&mut buffer, input);
        tally.count("Restore, no capacity", NO_IMAGE);
        if answer != Err((NO_IMAGE, None)) || buffer != before {
            return Err(format!("Restore into {capacity} bytes says {answer:?}"));
        }
    }
    Ok(())
}

fn refused((number, place): Stopped) -> Result<(), (u8, Option<u64>)> {
    Err((number, Some(place as u64)))
}
