//! 02's two recordings, in its own words: each run is followed by itself over the
//! reference, and the two are held against each other after equally many records.

use krabka_metadata::MetadataImage;
use uuid::Uuid;
use wire::{decode, encoded};

use crate::image::{image, layout, weight};
use crate::observe::{Observed, Witness, observe};
use crate::verdict::{NO_OFFSET, NO_ROOM, offset_leaves_i64};

/// "A run goes on, has ended, or is refused by Apply at its next record with some
/// number."
#[derive(Debug, Clone, Copy, PartialEq, Eq)]
pub enum Standing {
    GoesOn,
    Ended,
    Refused(u8),
}

/// A run of records from a fresh image on, up to its end or the first refusal
/// that does not come of the room. The records have the offsets 0, 1, .., so that
/// none is refused for its offset.
pub struct Course {
    /// What there is after each count of records, from none on.
    after: Vec<After>,
    /// How the run stands after the last count.
    last: Standing,
}

struct After {
    observed: Observed,
    /// The snapshot apart from the offset.
    records: Vec<u8>,
    weight: usize,
}

impl Course {
    pub fn of(run: &[u8]) -> Self {
        let mut image = MetadataImage::new(Uuid::nil());
        let (mut witness, mut rest) = (Witness::default(), run);
        let mut after = Vec::new();
        let last = loop {
            let offset = after.len() as i64 - 1;
            after.push(After::of(observe(&image, &witness).at(offset)));
            if rest.is_empty() {
                break Standing::Ended;
            }
            let (record, used) = match decode(rest) {
                Ok((record, _)) if offset_leaves_i64(&image, &record) => {
                    break Standing::Refused(NO_OFFSET);
                }
                Ok(found) => found,
                Err(number) => break Standing::Refused(number),
            };
            witness.see(&record);
            image.apply(&record);
            rest = &rest[used..];
        };
        Self { after, last }
    }

    /// How the run stands after so many records at a capacity. Room is asked for
    /// last.
    fn standing(&self, count: usize, capacity: usize) -> Standing {
        match self.after.get(count + 1) {
            None => self.last,
            Some(next) if next.weight > capacity => Standing::Refused(NO_ROOM),
            Some(_) => Standing::GoesOn,
        }
    }

    /// The greatest weight on the way.
    pub fn heaviest(&self) -> usize {
        let weights = self.after.iter().map(|after| after.weight);
        weights.max().expect("a fresh image")
    }

    /// The image after so many records.
    pub fn image(&self, count: usize, capacity: usize) -> Vec<u8> {
        let observed = &self.after[count].observed;
        image(observed, capacity).expect("contents that fit")
    }

    /// Its used bytes.
    pub fn used(&self, count: usize) -> Vec<u8> {
        let layout = layout(&self.after[count].observed);
        layout.bytes(layout.used())
    }
}

impl After {
    fn of(observed: Observed) -> Self {
        let records: Vec<Vec<u8>> = observed.records.iter().map(encoded).collect();
        Self {
            records: records.concat(),
            weight: weight(&observed),
            observed,
        }
    }
}

/// Where two runs part, or up to where they agree.
#[derive(Debug, Clone, Copy, PartialEq, Eq)]
pub struct Parting {
    /// The count of records of each.
    pub count: usize,
    /// Whether the snapshots are the same there.
    pub same: bool,
    /// How the runs stand there.
    pub standings: [Standing; 2],
}

impl Parting {
    /// "If both end, or are refused alike, with no such k, the result is agree."
    pub fn parts(&self) -> bool {
        let [one, other] = self.standings;
        !self.same || one != other
    }
}

/// "The least count k where the snapshots after k applied records differ apart
/// from the offset, or where the runs stand differently", and else the last count
/// of both.
pub fn parting(one: &Course, other: &Course, capacity: usize) -> Parting {
    let at = |count| Parting {
        count,
        same: one.after[count].records == other.after[count].records,
        standings: [one, other].map(|course| course.standing(count, capacity)),
    };
    let goes_on = |parting: &Parting| parting.same && parting.standings == [Standing::GoesOn; 2];
    (0..)
        .map(at)
        .find(|parting| !goes_on(parting))
        .expect("a run has an end")
}
