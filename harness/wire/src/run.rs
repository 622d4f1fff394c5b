//! The cursor over a run of fields.

use crate::read::WRONG_FIELD;

/// The fields of a run, in byte order, each a tag and a value. A field that is
/// torn or runs past the end is `WRONG_FIELD`, and nothing comes after it.
pub struct Run<'a> {
    rest: &'a [u8],
}

impl<'a> Run<'a> {
    pub fn new(bytes: &'a [u8]) -> Self {
        Self { rest: bytes }
    }

    fn field(&mut self) -> Option<(u8, &'a [u8])> {
        let (&[tag, high, low], after) = self.rest.split_first_chunk()?;
        let length = usize::from(u16::from_be_bytes([high, low]));
        let (value, rest) = after.split_at_checked(length)?;
        self.rest = rest;
        Some((tag, value))
    }
}

impl<'a> Iterator for Run<'a> {
    type Item = Result<(u8, &'a [u8]), u8>;

    fn next(&mut self) -> Option<Self::Item> {
        if self.rest.is_empty() {
            return None;
        }
        let field = self.field();
        if field.is_none() {
            self.rest = &[];
        }
        Some(field.ok_or(WRONG_FIELD))
    }
}
