//! Read: whether bytes begin with a record, and where it ends.

use crate::offset::{LOG_OFFSET, is_offset};
use crate::run::Run;
use crate::table::{Form, Presence, Row, shape};

/// The header or the body runs past the input.
pub const PAST_THE_END: u8 = 2;
/// The kind is outside 1 to 26; of a record of the log, outside 1 to 25.
pub const UNKNOWN_KIND: u8 = 3;
/// A field's tag, length or value is wrong, or a field is missing.
pub const WRONG_FIELD: u8 = 4;
/// A field is over its limit.
pub const OVER_A_LIMIT: u8 = 5;
/// A node stands twice in the replicas.
pub const REPEATED: u8 = 20;

/// The bytes before a record's body or a field's value: the kind or tag, and
/// the length.
pub const HEADER: usize = 3;

/// Reads the record at the start of `input`: the bytes that it takes, or the
/// refusal's number. Bytes after the record are not looked at.
pub fn read(input: &[u8]) -> Result<usize, u8> {
    let (kind, body) = framed(input)?;
    let shape = shape(kind).ok_or(UNKNOWN_KIND)?;
    check_run(shape.rows, body, None)?;
    Ok(HEADER + body.len())
}

/// As `read`, of a record of the log, which Validate and Apply are given: a log
/// offset is none, whatever its body is.
pub fn read_logged(input: &[u8]) -> Result<usize, u8> {
    match framed(input)? {
        (LOG_OFFSET, _) => Err(UNKNOWN_KIND),
        _ => read(input),
    }
}

/// The kind and the body that the input begins with.
fn framed(input: &[u8]) -> Result<(u8, &[u8]), u8> {
    let (&[kind, high, low], rest) = input.split_first_chunk().ok_or(PAST_THE_END)?;
    let length = usize::from(u16::from_be_bytes([high, low]));
    let body = rest.get(..length).ok_or(PAST_THE_END)?;
    Ok((kind, body))
}

/// Checks the fields of a run in byte order. `key_before` is the key of the
/// map's element before this run, and the answer is the run's own key; they are
/// `None` where there is no such key.
pub(crate) fn check_run<'a>(
    rows: &[Row],
    bytes: &'a [u8],
    key_before: Option<&[u8]>,
) -> Result<Option<&'a [u8]>, u8> {
    use Form::*;
    let mut own_key = None;
    let mut last = 0;
    // How often the tag `last` stood so far, and the key of its last element.
    let mut count = 0;
    let mut element_key = None;
    for field in Run::new(bytes) {
        let (tag, value) = field?;
        let row = row_after(rows, last, tag)?;
        if tag != last {
            (last, count, element_key) = (tag, 0, None);
        }
        match row.form {
            U16 | U64 | I16 | I32 | I64 | F64 | Id => well_formed(value.len() == row.size)?,
            Bool | Enum => check_choice(value, row.size)?,
            String => check_string(value, row.size)?,
            Key => own_key = Some(check_key(value, row.size, key_before)?),
            Bytes => within(value.len(), row.size)?,
            Nodes => check_list(value, 8, row.size)?,
            NodeSet => check_set(value, row.size)?,
            Ids => check_list(value, 16, row.size)?,
            Offset => well_formed(is_offset(value))?,
            Nested(shape) => element_key = check_run(shape.rows, value, element_key)?,
        }
        count += 1;
        if let Presence::UpTo(limit) = row.presence {
            within(count, limit)?;
        }
    }
    none_required(&rows[usize::from(last)..])?;
    Ok(own_key)
}

/// The row of a field `tag` that stands after a field `last`, 0 at the start.
fn row_after(rows: &[Row], last: u8, tag: u8) -> Result<&Row, u8> {
    let place = usize::from(tag).checked_sub(1).ok_or(WRONG_FIELD)?;
    let row = rows.get(place).ok_or(WRONG_FIELD)?;
    if tag == last && matches!(row.presence, Presence::UpTo(_)) {
        return Ok(row);
    }
    well_formed(tag > last)?;
    none_required(&rows[usize::from(last)..place])?;
    Ok(row)
}

/// None of the fields that are left out is required.
fn none_required(left_out: &[Row]) -> Result<(), u8> {
    let required = |row: &Row| row.presence == Presence::Required;
    well_formed(!left_out.iter().any(required))
}

/// One byte below the number of values.
fn check_choice(value: &[u8], values: usize) -> Result<(), u8> {
    well_formed(matches!(value, [byte] if usize::from(*byte) < values))
}

pub(crate) fn check_string(value: &[u8], limit: usize) -> Result<(), u8> {
    well_formed(str::from_utf8(value).is_ok())?;
    within(value.len(), limit)
}

/// A string above the key before it; the order is checked before the limit.
fn check_key<'a>(key: &'a [u8], limit: usize, before: Option<&[u8]>) -> Result<&'a [u8], u8> {
    well_formed(str::from_utf8(key).is_ok())?;
    well_formed(before.is_none_or(|before| before < key))?;
    within(key.len(), limit)?;
    Ok(key)
}

/// Elements of the width, back to back.
fn check_list(value: &[u8], width: usize, limit: usize) -> Result<(), u8> {
    well_formed(value.len().is_multiple_of(width))?;
    within(value.len() / width, limit)
}

/// Nodes, none of which comes twice; that is checked last.
fn check_set(value: &[u8], limit: usize) -> Result<(), u8> {
    check_list(value, 8, limit)?;
    let (nodes, _) = value.as_chunks::<8>();
    let comes_again = |(place, node)| nodes[..place].contains(node);
    match nodes.iter().enumerate().any(comes_again) {
        true => Err(REPEATED),
        false => Ok(()),
    }
}

pub(crate) fn well_formed(holds: bool) -> Result<(), u8> {
    if holds { Ok(()) } else { Err(WRONG_FIELD) }
}

fn within(number: usize, limit: usize) -> Result<(), u8> {
    let holds = number <= limit;
    if holds { Ok(()) } else { Err(OVER_A_LIMIT) }
}
