//! Validate and Apply, whose answers have no value: their numbers.

use jeghatuf::calls;

/// Validate's number of the record at the start of the input.
pub fn validate(image: &[u8], input: &[u8]) -> u8 {
    number(calls::validate(image, input))
}

/// Applies the record at the start of the input, where the number is 0.
pub fn apply(image: &mut [u8], offset: i64, input: &[u8]) -> u8 {
    number(calls::apply(image, offset, input))
}

fn number(answer: calls::Answer) -> u8 {
    answer.err().unwrap_or(0)
}
