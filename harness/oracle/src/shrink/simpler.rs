//! What is simpler than a record: a field less, a shorter text or list, a lower
//! number.

use wire::table::{Form, Row, shape};
use wire::{HEADER, Run, field, read};

/// Bytes of a node, and of an id.
const NODE: usize = 8;
const ID: usize = 16;

/// Records with one thing simpler than in this one, the boldest first; of bytes
/// that are no record, shorter ones.
pub fn simpler(input: &[u8]) -> Vec<Vec<u8>> {
    if read(input) != Ok(input.len()) {
        return cuts(input);
    }
    let (kind, body) = (input[0], &input[HEADER..]);
    let rows = shape(kind).map_or(&[][..], |shape| shape.rows);
    let records = runs(rows, body).into_iter().map(|run| field(kind, &run));
    records
        .filter(|record| read(record) == Ok(record.len()))
        .collect()
}

/// A run of fields without one of them, and with one of them simpler.
fn runs(rows: &[Row], run: &[u8]) -> Vec<Vec<u8>> {
    let fields: Vec<(u8, &[u8])> = Run::new(run).map_while(Result::ok).collect();
    let changed = |place: usize, other: &[u8]| {
        let part = |(at, (tag, value)): (usize, &(u8, &[u8]))| match at == place {
            true => other.to_vec(),
            false => field(*tag, value),
        };
        fields.iter().enumerate().flat_map(part).collect()
    };
    let mut all: Vec<Vec<u8>> = (0..fields.len()).map(|place| changed(place, &[])).collect();
    for (place, (tag, value)) in fields.iter().enumerate() {
        let row = rows.iter().find(|row| row.tag == *tag);
        let values = row.map_or_else(Vec::new, |row| values(row.form, value));
        all.extend(
            values
                .iter()
                .map(|value| changed(place, &field(*tag, value))),
        );
    }
    all
}

fn values(form: Form, value: &[u8]) -> Vec<Vec<u8>> {
    match form {
        Form::String | Form::Key | Form::Bytes => cuts(value),
        Form::Nodes | Form::NodeSet => elements(value, NODE),
        Form::Ids => elements(value, ID),
        Form::Nested(shape) => runs(shape.rows, value),
        _ => lower(value),
    }
}

/// The bytes cut at the shorter lengths.
fn cuts(bytes: &[u8]) -> Vec<Vec<u8>> {
    let ends = shorter(bytes.len()).into_iter();
    ends.map(|end| bytes[..end].to_vec()).collect()
}

/// What is tried in the place of a length: none, half, and one less.
pub fn shorter(length: usize) -> Vec<usize> {
    let mut lengths = vec![0, length / 2, length.saturating_sub(1)];
    lengths.dedup();
    lengths.retain(|shorter| *shorter < length);
    lengths
}

/// Nothing, and all but one element; then a lower one.
fn elements(value: &[u8], width: usize) -> Vec<Vec<u8>> {
    let starts = (0..value.len()).step_by(width);
    let with =
        |start: usize, other: &[u8]| [&value[..start], other, &value[start + width..]].concat();
    let fewer = starts.clone().map(|start| with(start, &[]));
    let lowered = starts.flat_map(|start| {
        let others = lower(&value[start..start + width]).into_iter();
        others.map(move |other| with(start, &other))
    });
    let nothing = (!value.is_empty()).then(Vec::new);
    nothing.into_iter().chain(fewer).chain(lowered).collect()
}

/// Zero, one, the last byte alone, all but the last byte, and half.
fn lower(number: &[u8]) -> Vec<Vec<u8>> {
    let Some((last, before)) = number.split_last() else {
        return Vec::new();
    };
    let small = |last: u8| [&vec![0; before.len()], &[last][..]].concat();
    let mut all = vec![small(0), small(1), small(*last)];
    all.push([&[0], before].concat());
    all.push(half(number));
    all.retain(|other| other.as_slice() < number);
    all
}

/// Of the bytes as one number.
fn half(number: &[u8]) -> Vec<u8> {
    let mut carried = 0;
    let halved = number.iter().map(|byte| {
        let half = carried << 7 | byte >> 1;
        carried = byte & 1;
        half
    });
    halved.collect()
}
