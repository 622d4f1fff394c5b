//! Bytes put together by hand, apart from the encoder.

use wire::table::{Form, Presence, Row};

/// A field; with a kind in the tag's place, a record.
pub fn field(tag: u8, value: impl AsRef<[u8]>) -> Vec<u8> {
    let value = value.as_ref();
    let length = u16::try_from(value.len()).unwrap().to_be_bytes();
    [&[tag][..], &length, value].concat()
}

pub fn record(kind: u8, fields: &[Vec<u8>]) -> Vec<u8> {
    field(kind, fields.concat())
}

pub fn nodes(list: &[u64]) -> Vec<u8> {
    list.iter().flat_map(|node| node.to_be_bytes()).collect()
}

pub fn ids(list: &[u8]) -> Vec<u8> {
    list.iter().flat_map(|last| id(*last)).collect()
}

/// The id that is zero but for its last byte.
pub fn id(last: u8) -> [u8; 16] {
    u128::from(last).to_be_bytes()
}

/// The longest run of these rows: every field there and every limit reached.
/// `place` tells the elements of a map apart.
pub fn longest(rows: &[Row], place: u8) -> Vec<u8> {
    let fields = |row: &Row| match row.presence {
        Presence::UpTo(limit) => longest_fields(row, limit),
        _ => longest_field(row, place),
    };
    rows.iter().flat_map(fields).collect()
}

/// So many elements of a repeated field.
pub fn longest_fields(row: &Row, number: usize) -> Vec<u8> {
    let places = 0..u8::try_from(number).unwrap();
    places.flat_map(|place| longest_field(row, place)).collect()
}

fn longest_field(row: &Row, place: u8) -> Vec<u8> {
    use Form::*;
    let value = match row.form {
        U16 | U64 | I16 | I32 | I64 | F64 | Id => vec![0xFF; row.size],
        Bool | Enum => vec![row.size as u8 - 1],
        Key => [&[place + 1][..], &[b'k'; 254]].concat(),
        String | Bytes => vec![b's'; row.size],
        Nodes => vec![0xFF; row.size * 8],
        NodeSet => (0..row.size as u64).flat_map(u64::to_be_bytes).collect(),
        Ids => vec![0xFF; row.size * 16],
        Offset => i64::MAX.to_be_bytes().to_vec(),
        Nested(shape) => longest(shape.rows, place),
    };
    field(row.tag, value)
}

/// The longest run of these rows with one field changed, for each row and each
/// of its changes, also inside nested runs.
pub fn variants(rows: &[Row], changed: fn(&Row) -> Vec<Vec<u8>>) -> Vec<Vec<u8>> {
    let of_row = |(place, row): (usize, &Row)| {
        let mut fields = changed(row);
        if let Form::Nested(shape) = row.form {
            let inner = variants(shape.rows, changed).into_iter();
            fields.extend(inner.map(|run| field(row.tag, run)));
        }
        let before = longest(&rows[..place], 0);
        let after = longest(&rows[place + 1..], 0);
        fields
            .into_iter()
            .map(move |field| [&before[..], &field, &after].concat())
    };
    rows.iter().enumerate().flat_map(of_row).collect()
}
