//! The values of a line that are no lists and no elements, back to bytes.

use crate::bytes::{self, Set};
use crate::parse::{Fault, Parsed, Parser, VALUE_ENDS, shown};
use crate::spell::Style;
use crate::table::Form;

/// Above every limit of a value. A longer one is cut to it, so that its length fits two
/// bytes, and the library refuses it as it would refuse the whole.
const MOST_VALUE: usize = 4_096;

/// What ends a plain part of a string.
static STRING_ENDS: Set = Set::of(b"\"\\").and_below(0x20);

impl Parser<'_> {
    /// A whole number between two ends, in so many bytes.
    pub fn number(
        &mut self,
        least: i128,
        most: i128,
        width: usize,
        run: &mut Vec<u8>,
    ) -> Parsed<()> {
        let word = self.word(&VALUE_ENDS);
        let (is_negative, digits) = match word {
            [b'-', digits @ ..] => (true, digits),
            digits => (false, digits),
        };
        let Some(size) = size(digits) else {
            let found = shown(word);
            return Err(Fault::new(format!("a whole number expected, not {found}")));
        };
        let number = if is_negative { -size } else { size };
        if !(least..=most).contains(&number) {
            let word = String::from_utf8_lossy(word.get(..40).unwrap_or(word));
            return Err(Fault::new(format!(
                "{word} is out of range, {least} to {most}"
            )));
        }
        let bytes = number.to_be_bytes();
        run.extend_from_slice(bytes.get(bytes.len() - width..).unwrap_or_default());
        Ok(())
    }

    /// A decimal that a double holds, or a double's bits.
    pub fn double(&mut self, run: &mut Vec<u8>) -> Parsed<()> {
        let word = match self.peek() {
            Some(b'"') if self.style == Style::Json => self.bare()?,
            _ => self.word(&VALUE_ENDS),
        };
        let wrong = || {
            Fault::new(format!(
                "a number expected, or 0x and 16 hex digits, not {}",
                shown(word)
            ))
        };
        if let Some(digits) = word.strip_prefix(b"0x") {
            return match digits.len() {
                16 => unhex(digits, run),
                _ => Err(wrong()),
            };
        }
        let is_decimal = |byte: &u8| matches!(byte, b'0'..=b'9' | b'-' | b'+' | b'.' | b'e' | b'E');
        if !word.iter().all(is_decimal) {
            return Err(wrong());
        }
        let text = str::from_utf8(word).map_err(|_| wrong())?;
        let double: f64 = text.parse().map_err(|_| wrong())?;
        if double.is_infinite() {
            return Err(Fault::new(format!("{text} is out of range of a double")));
        }
        run.extend_from_slice(&double.to_be_bytes());
        Ok(())
    }

    pub fn id(&mut self, run: &mut Vec<u8>) -> Parsed<()> {
        let word = self.bare()?;
        if word.len() != 32 {
            return Err(Fault::new(format!(
                "32 hex digits expected, not {}",
                shown(word)
            )));
        }
        unhex(word, run)
    }

    pub fn bytes(&mut self, run: &mut Vec<u8>) -> Parsed<()> {
        let word = self.bare()?;
        let digits = match self.style {
            Style::Json => Some(word),
            Style::Text => word.strip_prefix(b"hex:"),
        };
        let digits = digits.ok_or_else(|| {
            Fault::new(format!("hex: and hex digits expected, not {}", shown(word)))
        })?;
        unhex(digits, run)
    }

    pub fn bool(&mut self, run: &mut Vec<u8>) -> Parsed<()> {
        let byte = match self.word(&VALUE_ENDS) {
            b"false" => 0,
            b"true" => 1,
            word => {
                return Err(Fault::new(format!(
                    "true or false expected, not {}",
                    shown(word)
                )));
            }
        };
        run.push(byte);
        Ok(())
    }

    pub fn choice(&mut self, names: &[&str], run: &mut Vec<u8>) -> Parsed<()> {
        let word = self.bare()?;
        let index = names.iter().position(|name| name.as_bytes() == word);
        let index = index.and_then(|index| u8::try_from(index).ok());
        let index = index.ok_or_else(|| {
            let (found, names) = (shown(word), names.join(", "));
            Fault::new(format!("{found} is none of {names}"))
        })?;
        run.push(index);
        Ok(())
    }

    pub fn string(&mut self, run: &mut Vec<u8>) -> Parsed<()> {
        if !self.takes(b'"') {
            let found = self.rest();
            return Err(Fault::new(format!(
                "a string in double quotes expected, not {found}"
            )));
        }
        loop {
            let plain = self.word(&STRING_ENDS);
            run.extend_from_slice(plain);
            match self.peek() {
                None => return Err(Fault::new("the string has no end")),
                Some(b'"') => {
                    self.at += 1;
                    return Ok(());
                }
                Some(b'\\') => self.escape(run)?,
                Some(_) => {
                    return Err(Fault::new(
                        "a control character stands in the string; it goes as \\n, \\t or \\u00..",
                    ));
                }
            }
        }
    }

    fn escape(&mut self, run: &mut Vec<u8>) -> Parsed<()> {
        self.at += 1;
        let letter = self.peek();
        self.at += 1;
        let byte = match letter {
            Some(byte @ (b'"' | b'\\' | b'/')) => byte,
            Some(b'n') => b'\n',
            Some(b'r') => b'\r',
            Some(b't') => b'\t',
            Some(b'b') => 0x08,
            Some(b'f') => 0x0c,
            Some(b'u') => return self.unicode(run),
            _ => {
                return Err(Fault::new(
                    "an escape that is none of \\\" \\\\ \\/ \\b \\f \\n \\r \\t \\u....",
                ));
            }
        };
        run.push(byte);
        Ok(())
    }

    /// A character by its number, or by the two halves that UTF-16 has for it.
    fn unicode(&mut self, run: &mut Vec<u8>) -> Parsed<()> {
        let mut units = [self.unit()?, 0];
        let mut count = 1;
        if (0xd800..0xdc00).contains(&units[0]) && self.takes(b'\\') && self.takes(b'u') {
            units[1] = self.unit()?;
            count = 2;
        }
        for character in char::decode_utf16(units.into_iter().take(count)) {
            let character = character.map_err(|_| {
                Fault::new("half of a character, as \\u...., without its other half")
            })?;
            run.extend_from_slice(character.encode_utf8(&mut [0; 4]).as_bytes());
        }
        Ok(())
    }

    fn unit(&mut self) -> Parsed<u16> {
        let digits = self.line.get(self.at..self.at + 4);
        let digits = digits.filter(|digits| digits.iter().all(u8::is_ascii_hexdigit));
        let text = digits.and_then(|digits| str::from_utf8(digits).ok());
        let unit = text.and_then(|text| u16::from_str_radix(text, 16).ok());
        self.at += 4;
        unit.ok_or_else(|| Fault::new("\\u and four hex digits expected"))
    }
}

/// Cuts a value that is too long to one that still is, a text between two characters.
pub fn clip(run: &mut Vec<u8>, start: usize, form: &Form) {
    let mut end = start + MOST_VALUE;
    if run.len() <= end {
        return;
    }
    if matches!(form, Form::Text | Form::Key) {
        let begins = |byte: &u8| byte & 0xc0 != 0x80;
        let within = run.get(start..=end).unwrap_or_default();
        let character = within.iter().rposition(begins).unwrap_or(0);
        end = start + character;
    }
    run.truncate(end);
}

fn unhex(digits: &[u8], run: &mut Vec<u8>) -> Parsed<()> {
    if bytes::unhex(run, digits) {
        return Ok(());
    }
    let found = shown(digits);
    Err(Fault::new(format!(
        "pairs of hex digits expected, not {found}"
    )))
}

/// The number that digits are, if they are such. No field holds what a u64 does not.
fn size(digits: &[u8]) -> Option<i128> {
    let mut size = Some(0_u64);
    for byte in digits {
        let digit = byte.wrapping_sub(b'0');
        if digit > 9 {
            return None;
        }
        let tenfold = size.and_then(|size| size.checked_mul(10));
        size = tenfold.and_then(|size| size.checked_add(u64::from(digit)));
    }
    let size = size.map_or(i128::MAX, i128::from);
    Some(size).filter(|_| !digits.is_empty())
}
