//! Sets of bytes, and hex digits, by tables.

/// Which bytes are among some.
pub struct Set([bool; 256]);

impl Set {
    pub const fn of(members: &[u8]) -> Self {
        let mut set = [false; 256];
        let mut rest = members;
        while let [first, others @ ..] = rest {
            set[*first as usize] = true;
            rest = others;
        }
        Self(set)
    }

    /// The same with all bytes below another one.
    pub const fn and_below(mut self, end: u8) -> Self {
        let mut byte = 0;
        while byte < end {
            self.0[byte as usize] = true;
            byte += 1;
        }
        self
    }

    pub fn has(&self, byte: u8) -> bool {
        self.0[usize::from(byte)]
    }

    /// Where the first of them stands in some bytes, or their end.
    pub fn first_in(&self, bytes: &[u8]) -> usize {
        let found = bytes.iter().position(|byte| self.has(*byte));
        found.unwrap_or(bytes.len())
    }
}

const DIGITS: &[u8; 16] = b"0123456789abcdef";

/// Puts bytes behind the output as pairs of hex digits.
pub fn hex(out: &mut Vec<u8>, bytes: &[u8]) {
    let start = out.len();
    out.resize(start + 2 * bytes.len(), 0);
    let room = out.get_mut(start..).unwrap_or_default();
    for (pair, byte) in room.chunks_exact_mut(2).zip(bytes) {
        pair.copy_from_slice(&[
            DIGITS[usize::from(byte >> 4)],
            DIGITS[usize::from(byte & 15)],
        ]);
    }
}

/// No digit's value.
const NONE: u8 = 16;

/// The value of each hex digit.
const HALVES: [u8; 256] = {
    let mut halves = [NONE; 256];
    let mut value = 0;
    while value < 16 {
        let digit = DIGITS[value as usize];
        halves[digit as usize] = value;
        halves[digit.to_ascii_uppercase() as usize] = value;
        value += 1;
    }
    halves
};

/// Puts what pairs of hex digits say behind the output. Whether they are such.
pub fn unhex(out: &mut Vec<u8>, digits: &[u8]) -> bool {
    let half = |digit: u8| HALVES[usize::from(digit)];
    let start = out.len();
    out.resize(start + digits.len() / 2, 0);
    let room = out.get_mut(start..).unwrap_or_default();
    let mut all = digits.len().is_multiple_of(2);
    for (byte, pair) in room.iter_mut().zip(digits.chunks_exact(2)) {
        let &[high, low] = pair else { return false };
        all &= half(high) < NONE && half(low) < NONE;
        *byte = half(high) << 4 | half(low) & 15;
    }
    all
}
