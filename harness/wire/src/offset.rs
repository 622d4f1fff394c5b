//! The record of a log offset, kind 26. The reference has no log offsets.

use crate::encode::field;

pub const LOG_OFFSET: u8 = 26;

/// The log offset of a fresh image, to which no record was applied.
pub const NO_RECORD: i64 = -1;

/// The record's bytes. Nothing is checked.
pub fn encoded_offset(offset: i64) -> Vec<u8> {
    field(LOG_OFFSET, &field(1, &offset.to_be_bytes()))
}

/// Eight bytes of a number that is not below -1.
pub(crate) fn is_offset(value: &[u8]) -> bool {
    let value = <[u8; 8]>::try_from(value).map(i64::from_be_bytes);
    value.is_ok_and(|offset| offset >= NO_RECORD)
}
