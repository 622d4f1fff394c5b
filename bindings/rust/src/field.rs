//! Where the fields of a record are.

use std::iter::successors;
use std::ops::Range;

use crate::calls;

/// A record's header: its kind and its body's length. A field's: its tag and its length.
const HEADER: usize = 3;

/// Where the value of the first field of a tag from the place `at` on is.
fn place(bytes: &[u8], at: usize, tag: u8) -> Option<Range<usize>> {
    let mut place = [0; 2];
    if calls::field(bytes, at, tag, &mut place) == 0 {
        return None;
    }
    let [start, length] = place.map(|number| usize::try_from(number).ok());
    let start = start?;
    Some(start..start.checked_add(length?)?)
}

/// What has fields: a record, or a run of fields inside one.
#[derive(Clone, Copy)]
pub(crate) enum Source<'a> {
    Record(&'a [u8]),
    Run(&'a [u8]),
}

impl<'a> Source<'a> {
    /// The values of a tag.
    pub(crate) fn values(self, tag: u8) -> impl Iterator<Item = &'a [u8]> {
        let (bytes, first) = match self {
            Source::Record(record) => (record, HEADER),
            Source::Run(run) => (run, 0),
        };
        successors(place(bytes, first, tag), move |before| {
            place(bytes, before.end, tag)
        })
        .filter_map(|place| bytes.get(place))
    }
}

/// Fields as the library takes them: the tags, the length of each, and the values back to
/// back.
#[derive(Default)]
pub(crate) struct Lists {
    pub(crate) tags: Vec<u8>,
    pub(crate) lengths: Vec<u16>,
    pub(crate) values: Vec<u8>,
}

impl Lists {
    /// Adds a field. The forms keep values below 2^16 bytes.
    pub(crate) fn push(&mut self, tag: u8, value: &[u8]) {
        let length = u16::try_from(value.len()).unwrap_or(u16::MAX);
        self.tags.push(tag);
        self.lengths.push(length);
        self.values.extend(value.iter().take(usize::from(length)));
    }

    /// The bytes of a record with these fields.
    pub(crate) fn size(&self) -> usize {
        HEADER * (1 + self.tags.len()) + self.values.len()
    }

    /// The fields as a run.
    pub(crate) fn run(&self) -> Vec<u8> {
        let mut run = Vec::with_capacity(self.size());
        let mut values = self.values.iter();
        for (tag, length) in self.tags.iter().zip(&self.lengths) {
            run.push(*tag);
            run.extend(length.to_be_bytes());
            run.extend(values.by_ref().take(usize::from(*length)));
        }
        run
    }
}

#[cfg(test)]
mod tests {
    use super::*;

    const LEVEL: [u8; 12] = [11, 0, 9, 1, 0, 1, b'a', 2, 0, 2, 0, 1];

    #[test]
    fn a_field_is_found_by_its_tag() {
        assert_eq!(place(&LEVEL, HEADER, 1), Some(6..7));
        assert_eq!(place(&LEVEL, HEADER, 2), Some(10..12));
        assert_eq!(place(&LEVEL, HEADER, 3), None);
        assert_eq!(place(&LEVEL, 7, 1), None);
    }

    #[test]
    fn a_field_that_repeats_is_found_again() {
        let run = [1, 0, 0, 1, 0, 2, 5, 6, 2, 0, 1, 7];
        let values: Vec<_> = Source::Run(&run).values(1).collect();
        assert_eq!(values, [&[][..], &[5, 6]]);
        assert_eq!(Source::Run(&run).values(2).collect::<Vec<_>>(), [[7]]);
        assert_eq!(Source::Run(&run).values(3).count(), 0);
    }

    #[test]
    fn a_field_that_is_torn_is_none() {
        for end in 0..LEVEL.len() {
            assert_eq!(place(&LEVEL[..end], HEADER, 2), None);
        }
        for at in LEVEL.len()..LEVEL.len() + 3 {
            assert_eq!(place(&LEVEL, at, 1), None);
        }
        assert_eq!(place(&LEVEL, usize::MAX, 1), None);
    }

    #[test]
    fn a_list_with_fewer_elements_gets_those_that_it_has() {
        assert_eq!(calls::field(&LEVEL, HEADER, 2, &mut []), 1);
        let mut one = [9];
        assert_eq!(calls::field(&LEVEL, HEADER, 2, &mut one), 1);
        assert_eq!(one, [10]);
        assert_eq!(calls::field(&LEVEL, HEADER, 3, &mut one), 0);
        assert_eq!(one, [10]);
    }
}
