//! Runs of fields: a tag, a length of two bytes, the higher one first, and the value.

use jeghatuf::calls;

/// The bytes before a record's body, and before a field's value.
pub const HEADER: usize = 3;

/// The fields of a run, each with its tag and its value.
#[derive(Clone, Copy)]
pub struct Run<'a>(pub &'a [u8]);

impl<'a> Run<'a> {
    /// The fields of the record at the start of the bytes.
    pub fn of_record(record: &'a [u8]) -> Self {
        Run(split(record).map_or(&[], |(_, body)| body))
    }

    /// The value of a tag, of the first one where the field repeats.
    pub fn value(self, tag: u8) -> Option<&'a [u8]> {
        self.values(tag).next()
    }

    /// The values of a tag.
    pub fn values(self, tag: u8) -> impl Iterator<Item = &'a [u8]> {
        self.filter_map(move |(found, value)| (found == tag).then_some(value))
    }
}

impl<'a> Iterator for Run<'a> {
    type Item = (u8, &'a [u8]);

    fn next(&mut self) -> Option<Self::Item> {
        let (tag, value) = split(self.0)?;
        self.0 = self.0.get(HEADER + value.len()..)?;
        Some((tag, value))
    }
}

/// The first byte, and so many bytes behind the header as it says.
fn split(bytes: &[u8]) -> Option<(u8, &[u8])> {
    let &[first, high, low, ref rest @ ..] = bytes else {
        return None;
    };
    let length = usize::from(u16::from_be_bytes([high, low]));
    Some((first, rest.get(..length)?))
}

/// How long the record at the start of the bytes says that it is, if its header is there.
pub fn length(bytes: &[u8]) -> Option<usize> {
    let &[_, high, low, ..] = bytes else {
        return None;
    };
    Some(HEADER + usize::from(u16::from_be_bytes([high, low])))
}

/// Fields as Write takes them. They are kept from record to record, for their memory.
#[derive(Default)]
pub struct Lists {
    tags: Vec<u8>,
    lengths: Vec<u16>,
    values: Vec<u8>,
}

impl Lists {
    /// Writes the record of a kind's number and a run of fields behind the output, or
    /// gives the library's refusal.
    pub fn write(&mut self, kind: u8, run: &[u8], out: &mut Vec<u8>) -> Result<(), u8> {
        self.tags.clear();
        self.lengths.clear();
        self.values.clear();
        for (tag, value) in Run(run) {
            self.tags.push(tag);
            self.lengths
                .push(u16::try_from(value.len()).unwrap_or(u16::MAX));
            self.values.extend_from_slice(value);
        }
        let start = out.len();
        out.resize(start + HEADER + run.len(), 0);
        let room = out.get_mut(start..).unwrap_or_default();
        let written = calls::write(kind, &self.tags, &self.lengths, &self.values, room);
        out.truncate(start + written.unwrap_or(0));
        written.map(|_| ())
    }
}
