//! The entries of an image, read one after the other.

use krabka_metadata::MetadataRecord;
use wire::{HEADER, decode};

const TOPIC: u8 = 1;

/// A stored entry.
pub struct Entry {
    pub record: MetadataRecord,
    /// The record's bytes, without a topic's fifth field.
    pub size: usize,
    /// Whether the id index names this topic; false for other kinds.
    pub named: bool,
}

/// The entries that stand back to back in `bytes`, where all of them read.
pub fn entries(bytes: &[u8]) -> Option<Vec<Entry>> {
    let mut entries = Vec::new();
    let mut rest = bytes;
    while !rest.is_empty() {
        let (&[kind, high, low], _) = rest.split_first_chunk()?;
        let body = usize::from(u16::from_be_bytes([high, low]));
        let (entry, after) = rest.split_at_checked(HEADER + body)?;
        entries.push(match kind {
            TOPIC => topic(&entry[HEADER..])?,
            _ => read(entry, false)?,
        });
        rest = after;
    }
    Some(entries)
}

fn read(bytes: &[u8], named: bool) -> Option<Entry> {
    let (record, size) = decode(bytes).ok()?;
    Some(Entry {
        record,
        size,
        named,
    })
}

/// A topic's body: its record's fields, then tag 5, five bytes, four zeros and
/// 0 or 1.
fn topic(body: &[u8]) -> Option<Entry> {
    let (fields, flag) = body.split_last_chunk::<8>()?;
    let named = match flag {
        [5, 0, 5, 0, 0, 0, 0, 0] => false,
        [5, 0, 5, 0, 0, 0, 0, 1] => true,
        _ => return None,
    };
    let length = u16::try_from(fields.len()).expect("shorter than its entry");
    let record = [&[TOPIC], &length.to_be_bytes()[..], fields].concat();
    read(&record, named)
}
