//! Records as lines of text, or as JSON: what `show` prints and `make` reads.

use crate::bytes::{Set, hex};
use crate::run::Run;
use crate::table::{self, Field, Form, Presence, Shape};

/// How a record is spelled.
#[derive(Clone, Copy, PartialEq, Eq)]
pub enum Style {
    /// `Topic name="plan-0042" partitions=2`
    Text,
    /// `{"kind":"Topic","name":"plan-0042","partitions":2}`
    Json,
}

/// Puts a record that was read behind the output, without an end of line.
pub fn record(out: &mut Vec<u8>, style: Style, record: &[u8]) {
    let Some(shape) = record.first().and_then(|kind| table::kind(*kind)) else {
        return;
    };
    if style == Style::Json {
        out.extend_from_slice(b"{\"kind\":\"");
    }
    out.extend_from_slice(shape.name.as_bytes());
    if style == Style::Json {
        out.push(b'"');
    }
    fields(out, style, shape, Run::of_record(record), false);
    if style == Style::Json {
        out.push(b'}');
    }
}

/// The fields of a shape that stand in a run, in the order of their tags.
fn fields(out: &mut Vec<u8>, style: Style, shape: &Shape, run: Run<'_>, mut first: bool) {
    let mut rest = run.peekable();
    for field in shape.fields {
        let mut next = || rest.next_if(|(tag, _)| *tag == field.tag);
        if field.presence == Presence::Repeated {
            name(out, style, field, &mut first);
            out.push(b'[');
            let mut separator = None;
            while let Some((_, element)) = next() {
                out.extend(separator);
                value(out, style, &field.form, element);
                separator = Some(b',');
            }
            out.push(b']');
        } else if let Some((_, found)) = next() {
            name(out, style, field, &mut first);
            value(out, style, &field.form, found);
        }
    }
}

fn name(out: &mut Vec<u8>, style: Style, field: &Field, first: &mut bool) {
    let (separator, before, after): (_, &[u8], &[u8]) = match style {
        Style::Text => (b' ', b"", b"="),
        Style::Json => (b',', b"\"", b"\":"),
    };
    if !*first {
        out.push(separator);
    }
    *first = false;
    out.extend_from_slice(before);
    out.extend_from_slice(field.name.as_bytes());
    out.extend_from_slice(after);
}

/// Puts a field's value behind the output.
pub fn value(out: &mut Vec<u8>, style: Style, form: &Form, bytes: &[u8]) {
    match form {
        Form::U16 | Form::U64 => unsigned(out, number(bytes)),
        Form::I16 | Form::I32 | Form::I64 | Form::Offset => signed(out, bytes),
        Form::F64 => double(out, style, f64::from_bits(number(bytes))),
        Form::Bool => out.extend_from_slice(if bytes == [1] { b"true" } else { b"false" }),
        Form::Enum(names) => choice(out, style, names, bytes),
        Form::Text | Form::Key => string(out, bytes),
        Form::Id => bare(out, style, |out| hex(out, bytes)),
        Form::Bytes => bare(out, style, |out| {
            if style == Style::Text {
                out.extend_from_slice(b"hex:");
            }
            hex(out, bytes);
        }),
        Form::Nodes | Form::NodeSet => list(out, bytes.chunks(8), |out, node| {
            unsigned(out, number(node));
        }),
        Form::Ids => list(out, bytes.chunks(16), |out, id| {
            bare(out, style, |out| hex(out, id));
        }),
        Form::Shape(shape) => {
            out.push(b'{');
            fields(out, style, shape, Run(bytes), true);
            out.push(b'}');
        }
    }
}

/// The text of a field's value.
pub fn value_text(form: &Form, bytes: &[u8]) -> String {
    let mut out = Vec::new();
    value(&mut out, Style::Text, form, bytes);
    String::from_utf8_lossy(&out).into_owned()
}

fn list<'a>(
    out: &mut Vec<u8>,
    elements: impl Iterator<Item = &'a [u8]>,
    put: impl Fn(&mut Vec<u8>, &'a [u8]),
) {
    let mut separator = None;
    out.push(b'[');
    for element in elements {
        out.extend(separator);
        put(out, element);
        separator = Some(b',');
    }
    out.push(b']');
}

/// A word that stands bare in text and is a string in JSON.
fn bare(out: &mut Vec<u8>, style: Style, put: impl FnOnce(&mut Vec<u8>)) {
    if style == Style::Text {
        return put(out);
    }
    out.push(b'"');
    put(out);
    out.push(b'"');
}

fn choice(out: &mut Vec<u8>, style: Style, names: &[&str], bytes: &[u8]) {
    let index = bytes.first().map_or(0, |byte| usize::from(*byte));
    let name = names.get(index).copied().unwrap_or_default();
    bare(out, style, |out| out.extend_from_slice(name.as_bytes()));
}

/// The number that at most eight bytes are.
fn number(bytes: &[u8]) -> u64 {
    bytes
        .iter()
        .fold(0, |number, byte| number << 8 | u64::from(*byte))
}

fn unsigned(out: &mut Vec<u8>, mut number: u64) {
    let mut digits = [0; 20];
    let mut start = digits.len();
    for digit in digits.iter_mut().rev() {
        *digit = b'0' + (number % 10) as u8;
        number /= 10;
        start -= 1;
        if number == 0 {
            break;
        }
    }
    out.extend_from_slice(digits.get(start..).unwrap_or_default());
}

fn signed(out: &mut Vec<u8>, bytes: &[u8]) {
    let unused = 64 - 8 * u32::try_from(bytes.len().clamp(1, 8)).unwrap_or(8);
    let number = (number(bytes) << unused).cast_signed() >> unused;
    if number < 0 {
        out.push(b'-');
    }
    unsigned(out, number.unsigned_abs());
}

/// The shortest decimal that reads back to the same bits: of a whole number up to 2^53
/// its digits. What has none, an infinity or no number, goes by its bits.
fn double(out: &mut Vec<u8>, style: Style, double: f64) {
    const WHOLE: f64 = 9_007_199_254_740_992.0;
    if !double.is_finite() {
        let bits = format!("0x{:016x}", double.to_bits());
        return bare(out, style, |out| out.extend_from_slice(bits.as_bytes()));
    }
    let is_whole = double.fract() == 0.0 && double.abs() <= WHOLE;
    let is_minus_zero = double == 0.0 && double.is_sign_negative();
    let text = if is_whole && !is_minus_zero {
        format!("{double}")
    } else {
        format!("{double:?}")
    };
    out.extend_from_slice(text.as_bytes());
}

/// A string in double quotes with JSON's escapes. Escaped is also what could act on a
/// terminal or break a line: DEL, the C1 controls, the line separators and the marks
/// that turn the direction of writing.
pub fn string(out: &mut Vec<u8>, bytes: &[u8]) {
    out.push(b'"');
    let mut rest = bytes;
    while !rest.is_empty() {
        let (plain, after) = rest.split_at(MARKED.first_in(rest));
        out.extend_from_slice(plain);
        rest = after.get(escaped(out, after)..).unwrap_or_default();
    }
    out.push(b'"');
}

/// The bytes that are escaped, or that begin a character that may be.
static MARKED: Set = Set::of(&[b'"', b'\\', 0x7f, 0xc2, 0xe2]).and_below(0x20);

/// Puts the character that a marked byte begins, and says how many bytes it has.
fn escaped(out: &mut Vec<u8>, bytes: &[u8]) -> usize {
    let short = |out: &mut Vec<u8>, letter| out.extend_from_slice(&[b'\\', letter]);
    match *bytes {
        [byte @ (b'"' | b'\\'), ..] => short(out, byte),
        [b'\n', ..] => short(out, b'n'),
        [b'\r', ..] => short(out, b'r'),
        [b'\t', ..] => short(out, b't'),
        [0x08, ..] => short(out, b'b'),
        [0x0c, ..] => short(out, b'f'),
        [byte @ (0..=0x1f | 0x7f), ..] => unicode(out, u16::from(byte)),
        [0xc2, second @ 0x80..=0x9f, ..] => {
            unicode(out, u16::from(second));
            return 2;
        }
        [0xe2, 0x80, third @ 0xa8..=0xae, ..] | [0xe2, 0x81, third @ 0xa6..=0xa9, ..] => {
            let block = if bytes.get(1) == Some(&0x80) {
                0x2000
            } else {
                0x2040
            };
            unicode(out, block + u16::from(third & 0x3f));
            return 3;
        }
        [byte, ..] => out.push(byte),
        [] => {}
    }
    1
}

fn unicode(out: &mut Vec<u8>, code: u16) {
    out.extend_from_slice(b"\\u");
    hex(out, &code.to_be_bytes());
}
