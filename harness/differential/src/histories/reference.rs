//! The reference's image, what it says of the next record, and beside it the log
//! offset, which the reference does not have.

use krabka_metadata::{MetadataImage, MetadataRecord};
use oracle::image::weight;
use oracle::observe::{Observed, Witness, observe, restored};
use oracle::snapshot;
use oracle::verdict::{ACCEPTED, NO_OFFSET, NO_ROOM, NOT_LATER, judged, offset_leaves_i64};
use uuid::Uuid;
use wire::{NO_RECORD, decode};

/// The first refusal of Restore, with the place of its record.
pub type Stopped = (u8, usize);

#[derive(Clone)]
pub struct Reference {
    pub image: MetadataImage,
    /// The log offset of the last record that was applied.
    pub offset: i64,
    witness: Witness,
}

impl Reference {
    pub fn new() -> Self {
        Self {
            image: MetadataImage::new(Uuid::nil()),
            offset: NO_RECORD,
            witness: Witness::default(),
        }
    }

    pub fn observed(&self) -> Observed {
        observe(&self.image, &self.witness).at(self.offset)
    }

    /// Read's number, else Validate's.
    pub fn verdict(&self, input: &[u8]) -> u8 {
        match decode(input) {
            Ok((record, _)) => judged(&self.image, &record),
            Err(number) => number,
        }
    }

    /// What `apply` leaves at a log offset, or the number of the refusals before
    /// the one for the room: Read's, 21, 17. The reference has none of them, so
    /// it is not asked there.
    pub fn after(&self, offset: i64, input: &[u8]) -> Result<Self, u8> {
        let (record, _) = decode(input)?;
        match offset > self.offset {
            true => self.moved(offset, &record),
            false => Err(NOT_LATER),
        }
    }

    /// What `apply` leaves, at a log offset, or 17.
    fn moved(&self, offset: i64, record: &MetadataRecord) -> Result<Self, u8> {
        if offset_leaves_i64(&self.image, record) {
            return Err(NO_OFFSET);
        }
        let mut after = self.clone();
        after.apply(record);
        after.offset = offset;
        Ok(after)
    }

    /// A step without a limit of room: a validated one applies what Validate
    /// accepts, another one every record.
    pub fn take(&mut self, input: &[u8], validated: bool) {
        let Ok((record, _)) = decode(input) else {
            return;
        };
        let refused = validated && judged(&self.image, &record) != ACCEPTED;
        if !refused && !offset_leaves_i64(&self.image, &record) {
            self.apply(&record);
        }
    }

    /// What `from_records` makes of the image's own snapshot, at its log offset.
    pub fn restarted(&self) -> Self {
        Self {
            image: restored(&self.observed()),
            offset: self.offset,
            witness: self.witness.clone(),
        }
    }

    /// From a fresh image the log offset, then record after record, up to the
    /// first refusal.
    pub fn restored(input: &[u8], capacity: usize) -> (Self, Option<Stopped>) {
        let mut reference = Self::new();
        let (offset, mut place) = match snapshot::start(input) {
            Ok(found) => found,
            Err(number) => return (reference, Some((number, 0))),
        };
        reference.offset = offset;
        while place < input.len() {
            match reference.with_next(&input[place..], capacity) {
                Ok((after, used)) => {
                    reference = after;
                    place += used;
                }
                Err(number) => return (reference, Some((number, place))),
            }
        }
        (reference, None)
    }

    /// What a snapshot's next record leaves, which has no offset of its own, and
    /// the bytes that it takes.
    fn with_next(&self, rest: &[u8], capacity: usize) -> Result<(Self, usize), u8> {
        let (record, used) = snapshot::next(rest)?;
        let after = self.moved(self.offset, &record)?;
        match weight(&after.observed()) > capacity {
            true => Err(NO_ROOM),
            false => Ok((after, used)),
        }
    }

    fn apply(&mut self, record: &MetadataRecord) {
        self.witness.see(record);
        self.image.apply(record);
    }
}
