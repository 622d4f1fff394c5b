//! The exact test of one buffer.

use super::{Compared, Tally};
use crate::is_image;

/// Compares with the harness's own test. `made` says how the buffer was made.
pub fn compare(
    tally: &mut Tally,
    what: &'static str,
    buffer: &[u8],
    made: impl Fn() -> String,
) -> Compared {
    expect(tally, what, buffer, oracle::exact::is_image(buffer), made)
}

/// Compares with the answer that is expected.
pub fn expect(
    tally: &mut Tally,
    what: &'static str,
    buffer: &[u8],
    expected: bool,
    made: impl Fn() -> String,
) -> Compared {
    let answer = is_image(buffer);
    tally.count(what, answer);
    if answer == u64::from(expected) {
        return Ok(());
    }
    let (made, buffer) = (made(), shown(buffer));
    Err(format!(
        "{what}, {made}: the exact test says {answer}, expected is {}\n{buffer}",
        u8::from(expected)
    ))
}

/// The buffer in hex, without the zeros at its end.
pub fn shown(buffer: &[u8]) -> String {
    let end = buffer.iter().rposition(|byte| *byte != 0);
    let start = &buffer[..end.map_or(0, |last| last + 1)];
    let hex = wire::hex(start);
    format!(
        "{} bytes, and zeros up to {}: {hex}",
        start.len(),
        buffer.len()
    )
}
