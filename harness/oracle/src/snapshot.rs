//! A snapshot's bytes: the log offset first, then the records. The reference's
//! `to_records` has no offset.

use krabka_metadata::MetadataRecord;
use wire::{LOG_OFFSET, decode, encoded_all, encoded_offset, read};

use crate::observe::Observed;
use crate::verdict::MISPLACED_OFFSET;

pub fn snapshot(observed: &Observed) -> Vec<u8> {
    starting(observed.offset, &encoded_all(&observed.records))
}

/// A run of records behind a log offset.
pub fn starting(offset: i64, run: &[u8]) -> Vec<u8> {
    [&encoded_offset(offset), run].concat()
}

/// The log offset that some bytes start with, and where the records begin; or
/// Restore's number at their first place: Read's, and 22 where the first record
/// is another one, or there is none.
pub fn start(bytes: &[u8]) -> Result<(i64, usize), u8> {
    if bytes.is_empty() {
        return Err(MISPLACED_OFFSET);
    }
    let used = read(bytes)?;
    if bytes[0] != LOG_OFFSET {
        return Err(MISPLACED_OFFSET);
    }
    let value = bytes[..used].last_chunk().expect("an offset has 8 bytes");
    Ok((i64::from_be_bytes(*value), used))
}

/// The record that stands at a later place, and the bytes that it takes; or
/// Restore's number there: Read's, and 22 for a log offset.
pub fn next(bytes: &[u8]) -> Result<(MetadataRecord, usize), u8> {
    read(bytes)?;
    match bytes[0] {
        LOG_OFFSET => Err(MISPLACED_OFFSET),
        _ => decode(bytes),
    }
}
