//! Records of log offsets, kind 26, of known standing.

use wire::{LOG_OFFSET, NO_RECORD, WRONG_FIELD, encoded_offset, field};

/// Records, each with Read's number.
pub fn log_offsets() -> Vec<(Vec<u8>, u8)> {
    let numbers = [NO_RECORD, 0, 1, 255, 1 << 32, i64::MAX - 1, i64::MAX];
    let below = [-2, -256, -257, -(1 << 32), i64::MIN + 1, i64::MIN];
    let right = numbers.map(|offset| (encoded_offset(offset), 0));
    let wrong = below.map(|offset| (encoded_offset(offset), WRONG_FIELD));
    let bits = (0..63).map(|bit| (encoded_offset(-1 ^ (1 << bit)), WRONG_FIELD));
    right
        .into_iter()
        .chain(wrong)
        .chain(bits)
        .chain(bodies())
        .collect()
}

/// Bodies of other lengths, tags and numbers of fields.
fn bodies() -> Vec<(Vec<u8>, u8)> {
    let value = |length: usize| field(1, &vec![0; length]);
    let lengths = [0, 1, 7, 9, 16].map(value);
    let others = [
        Vec::new(),
        vec![1],
        field(2, &[0; 8]),
        [value(8), value(8)].concat(),
        [value(8), field(2, &[])].concat(),
    ];
    let bodies = lengths.into_iter().chain(others);
    bodies
        .map(|body| (field(LOG_OFFSET, &body), WRONG_FIELD))
        .collect()
}
