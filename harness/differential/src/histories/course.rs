//! A history under way: the library's buffer beside the reference.

use oracle::image::image;
use oracle::verdict::{NO_ROOM, NOT_LATER};
use wire::{NO_RECORD, Random};

use super::expect;
use super::reference::Reference;
use crate::images::{Compared, Tally, shown};
use crate::{apply, log_offset, open};

/// One Apply in so many is tried again at log offsets that are not later.
const TRIED: i64 = 8;

#[derive(Clone)]
pub struct Course {
    pub buffer: Vec<u8>,
    /// The bytes that the reference's image has at the buffer's capacity.
    expected: Vec<u8>,
    pub reference: Reference,
    /// The log offset of the next step: how many there were, refused or not.
    next: i64,
}

/// What a step says: Validate's number, and Apply's where it was asked.
#[derive(PartialEq, Eq, Debug, Clone, Copy)]
pub struct Verdict {
    pub validate: u8,
    pub apply: Option<u8>,
}

impl Course {
    /// Opens a buffer of junk.
    pub fn open(tally: &mut Tally, capacity: usize) -> Result<Self, String> {
        let mut random = Random::new(capacity as u64);
        let reference = Reference::new();
        let expected = image(&reference.observed(), capacity);
        let mut course = Self {
            buffer: random.bytes(capacity),
            expected: expected.expect("a capacity that Open takes"),
            reference,
            next: 0,
        };
        let number = open(&mut course.buffer).map_or_else(|number| number, |_| 0);
        expect(tally, "Open", number, 0)?;
        course.compare_bytes()?;
        Ok(course)
    }

    /// One step at the next log offset: Validate, then Apply, of any bytes. In a
    /// validated one Apply gets no record that Validate refuses; what is no
    /// record it always gets.
    pub fn take(
        &mut self,
        tally: &mut Tally,
        input: &[u8],
        validated: bool,
    ) -> Result<Verdict, String> {
        let validate = self.reference.verdict(input);
        let number = crate::validate(&self.buffer, input);
        expect(tally, "Validate", number, validate)?;
        let offset = self.next;
        self.next += 1;
        let judged = validate != 0 && wire::read_logged(input).is_ok();
        let apply = match validated && judged {
            true => None,
            false => Some(self.apply(tally, offset, input)?),
        };
        self.compare_bytes()?;
        if apply.is_some() && offset % TRIED == 0 {
            self.try_earlier(tally, input)?;
        }
        self.compare_offset(tally)?;
        Ok(Verdict { validate, apply })
    }

    /// One Apply at a log offset of any bytes, held to the reference.
    pub fn apply_at(&mut self, tally: &mut Tally, offset: i64, input: &[u8]) -> Result<u8, String> {
        let number = self.apply(tally, offset, input)?;
        self.compare_bytes()?;
        self.compare_offset(tally)?;
        Ok(number)
    }

    /// Apply at the image's own log offset, below it, at -1 and at the least one.
    fn try_earlier(&mut self, tally: &mut Tally, input: &[u8]) -> Compared {
        let stored = self.reference.offset;
        let expected = wire::read_logged(input).err().unwrap_or(NOT_LATER);
        for offset in [stored, stored - 1, NO_RECORD, i64::MIN] {
            let number = apply(&mut self.buffer, offset, input);
            expect(
                tally,
                "Apply, at an offset that is not later",
                number,
                expected,
            )?;
            self.compare_bytes()
                .map_err(|difference| format!("at offset {offset}, {difference}"))?;
        }
        Ok(())
    }

    /// The reference moves where the library must, and stays where it must not.
    fn apply(&mut self, tally: &mut Tally, offset: i64, input: &[u8]) -> Result<u8, String> {
        let expected = match self.after(offset, input) {
            Ok((reference, bytes)) => {
                (self.reference, self.expected) = (reference, bytes);
                0
            }
            Err(number) => number,
        };
        let number = apply(&mut self.buffer, offset, input);
        if number == 0 {
            tally.count("Apply's 0 by kind", format!("{:02}", input[0]));
        }
        expect(tally, "Apply", number, expected)?;
        Ok(number)
    }

    /// Goes on with another buffer, which must hold what the reference does.
    pub fn go_on(&mut self, buffer: Vec<u8>, reference: Reference) -> Compared {
        let expected = image(&reference.observed(), buffer.len());
        self.expected = expected.expect("contents that fit");
        (self.buffer, self.reference) = (buffer, reference);
        self.compare_bytes()
    }

    /// The reference and the buffer after Apply, or its number.
    fn after(&self, offset: i64, input: &[u8]) -> Result<(Reference, Vec<u8>), u8> {
        let after = self.reference.after(offset, input)?;
        let bytes = image(&after.observed(), self.buffer.len()).ok_or(NO_ROOM)?;
        Ok((after, bytes))
    }

    /// The lookup of the log offset, by the one beside the reference.
    fn compare_offset(&self, tally: &mut Tally) -> Compared {
        let mut value = [0];
        let answer = log_offset(&self.buffer, &mut value);
        tally.count("log offset", answer.map_or_else(|number| number, |_| 0));
        match answer == Ok(0) && value[0].cast_signed() == self.reference.offset {
            true => Ok(()),
            false => Err(format!("the log offset is {answer:?} and {value:x?}")),
        }
    }

    fn compare_bytes(&self) -> Compared {
        if self.buffer == self.expected {
            return Ok(());
        }
        let (buffer, expected) = (shown(&self.buffer), shown(&self.expected));
        Err(format!("the buffer is {buffer}\nexpected is {expected}"))
    }
}
