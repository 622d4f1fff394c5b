//! What the reference and 01's rules make of each operation.

use krabka_metadata::{MetadataImage, MetadataRecord};
use uuid::Uuid;
use wire::{NO_RECORD, TOO_SHORT, decode};

use super::STEP_ALWAYS;
use crate::image::{FIXED_ROOM, MOST_CAPACITY, image};
use crate::layout::HEAD_SIZE;
use crate::observe::{Observed, Witness, observe, restored};
use crate::snapshot::{next, snapshot, start};
use crate::verdict::{
    ACCEPTED, NO_IMAGE, NO_OFFSET, NO_ROOM, NOT_LATER, judged, offset_leaves_i64,
};

/// What Open finds in its buffer.
const DIRT: u8 = 0xaa;
/// The length of the program's output buffer.
const OUTPUT: usize = 70_000;

/// The reference's image, its log offset, and the buffer that is to hold both.
pub struct Run {
    pub image: MetadataImage,
    pub offset: i64,
    witness: Witness,
    buffer: Vec<u8>,
}

impl Run {
    /// A fresh image at a capacity; where none has it, the buffer stays as Open finds it.
    pub fn at(capacity: usize) -> Self {
        let mut run = Self {
            image: MetadataImage::new(Uuid::nil()),
            offset: NO_RECORD,
            witness: Witness::default(),
            buffer: vec![DIRT; capacity],
        };
        if let Some(buffer) = image(&run.observed(), capacity) {
            run.buffer = buffer;
        }
        run
    }

    pub fn is_image(&self) -> bool {
        (FIXED_ROOM..=MOST_CAPACITY).contains(&self.buffer.len())
    }

    pub fn observed(&self) -> Observed {
        observe(&self.image, &self.witness).at(self.offset)
    }

    /// Validate's number, and Apply's where the operation applies.
    pub fn step(&mut self, operation: u8, offset: i64, input: &[u8]) -> (u8, Option<u8>) {
        let number = match self.record(input) {
            Ok(record) => judged(&self.image, &record),
            Err(number) => number,
        };
        let applies = operation == STEP_ALWAYS || number == ACCEPTED;
        (number, applies.then(|| self.apply(offset, input)))
    }

    /// The record that an input begins with, or the refusal of Validate and Apply that comes before all others.
    fn record(&self, input: &[u8]) -> Result<MetadataRecord, u8> {
        if !self.is_image() {
            return Err(NO_IMAGE);
        }
        decode(input).map(|(record, _)| record)
    }

    /// Apply's number. The reference goes on without a record that is refused.
    fn apply(&mut self, offset: i64, input: &[u8]) -> u8 {
        match self.record(input) {
            Ok(_) if offset <= self.offset => NOT_LATER,
            Ok(record) => self.take(offset, &record),
            Err(number) => number,
        }
    }

    /// Moves by a record, to a log offset, or says 17 or 18.
    fn take(&mut self, offset: i64, record: &MetadataRecord) -> u8 {
        if offset_leaves_i64(&self.image, record) {
            return NO_OFFSET;
        }
        let (mut after, mut witness) = (self.image.clone(), self.witness.clone());
        after.apply(record);
        witness.see(record);
        let observed = observe(&after, &witness).at(offset);
        let Some(buffer) = image(&observed, self.buffer.len()) else {
            return NO_ROOM;
        };
        *self = Self {
            image: after,
            offset,
            witness,
            buffer,
        };
        ACCEPTED
    }

    /// The snapshot's bytes.
    pub fn snapshot(&self) -> Vec<u8> {
        snapshot(&self.observed())
    }

    /// The image that `from_records` makes of the snapshot.
    pub fn cut(&mut self) {
        self.image = restored(&self.observed());
        self.go_to(self.offset);
    }

    /// The log offset, then record after record from a fresh image. The first
    /// refusal, with its place.
    pub fn restore(&mut self, input: &[u8]) -> Option<(u8, usize)> {
        *self = Self::at(self.buffer.len());
        let (offset, mut place) = match start(input) {
            Ok(found) => found,
            Err(number) => return Some((number, 0)),
        };
        self.go_to(offset);
        while place < input.len() {
            match self.take_next(&input[place..]) {
                Ok(used) => place += used,
                Err(number) => return Some((number, place)),
            }
        }
        None
    }

    fn go_to(&mut self, offset: i64) {
        self.offset = offset;
        self.buffer = image(&self.observed(), self.buffer.len()).expect("contents that fit");
    }

    /// Moves by a snapshot's next record, which has no offset of its own. The
    /// bytes that it takes.
    fn take_next(&mut self, rest: &[u8]) -> Result<usize, u8> {
        let (record, used) = next(rest)?;
        match self.take(self.offset, &record) {
            ACCEPTED => Ok(used),
            number => Err(number),
        }
    }

    /// The used length, where there is room for a header, and the digest of the whole buffer.
    pub fn answer(&self) -> String {
        let digest = digest(&self.buffer);
        if self.buffer.len() < HEAD_SIZE {
            return format!(" {digest}");
        }
        let used = self.buffer[8..12].try_into().expect("four bytes");
        format!(" {} {digest}", u32::from_be_bytes(used))
    }
}

/// The answer of an operation that writes records: how many bytes, and their digest; or 19.
pub fn written(bytes: &[u8]) -> String {
    match bytes.len() <= OUTPUT {
        true => format!(" 0 {} {}", bytes.len(), digest(bytes)),
        false => format!(" {TOO_SHORT}"),
    }
}

fn digest(bytes: &[u8]) -> u64 {
    let next = |n: u64, byte: &u8| (n * 257 + u64::from(*byte)) % 4_294_967_291;
    bytes.iter().fold(0, next)
}
