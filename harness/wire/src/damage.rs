//! Damaged copies of records, to compare readers on.

use std::ops::Range;

use crate::random::Random;
use crate::read::HEADER;
use crate::run::Run;
use crate::table::{Form, Row, shape};

/// A damaged copy of a record, by one random change. Where bytes come or go,
/// the lengths around them are mostly set right, so that the reader meets the
/// change itself. Any bytes may be given, also damaged ones.
pub fn damaged(random: &mut Random, good: &[u8]) -> Vec<u8> {
    let mut bytes = good.to_vec();
    let places = places(good);
    let field = &places[random.below(places.len())];
    match random.below(10) {
        0 => cut(random, &mut bytes),
        1 => change_byte(random, &mut bytes),
        2 => change_length(random, &mut bytes, field),
        3 => swap_tags(&mut bytes, field, &places[random.below(places.len())]),
        4 => swap_with_next(&mut bytes, field, &places),
        5 => repeat(random, &mut bytes, field),
        6 => replace(&mut bytes, field.start..field.end, &[], &field.lengths),
        7 => insert(random, &mut bytes, field),
        8 => repeat_element(&mut bytes, field),
        _ => append(random, &mut bytes),
    }
    bytes
}

/// The last eight bytes of a value become its first eight, so that a list of
/// nodes has one twice.
fn repeat_element(bytes: &mut [u8], field: &Place) {
    let first = field.start + HEADER;
    if first + 16 <= field.end {
        bytes.copy_within(first..first + 8, field.end - 8);
    }
}

/// Where a field stands, from its tag to its value's end, and the places of the
/// two-byte lengths that count it. The record itself is such a field too: its
/// kind is the tag.
struct Place {
    start: usize,
    end: usize,
    lengths: Vec<usize>,
}

/// The record and the fields in it, the nested ones too, as far as they parse.
fn places(bytes: &[u8]) -> Vec<Place> {
    let mut places = vec![Place {
        start: 0,
        end: bytes.len(),
        lengths: Vec::new(),
    }];
    if let Some(Ok((kind, body))) = Run::new(bytes).next() {
        places[0].end = HEADER + body.len();
        let rows = shape(kind).map_or(&[][..], |shape| shape.rows);
        add_places(&mut places, rows, body, HEADER, &[1]);
    }
    places
}

fn add_places(places: &mut Vec<Place>, rows: &[Row], run: &[u8], at: usize, lengths: &[usize]) {
    let mut start = at;
    for (tag, value) in Run::new(run).map_while(Result::ok) {
        let end = start + HEADER + value.len();
        let form = rows.iter().find(|row| row.tag == tag).map(|row| row.form);
        places.push(Place {
            start,
            end,
            lengths: lengths.to_vec(),
        });
        if let Some(Form::Nested(shape)) = form {
            let inner = [lengths, &[start + 1]].concat();
            add_places(places, shape.rows, value, start + HEADER, &inner);
        }
        start = end;
    }
}

/// Adds to the two-byte length at the place, if the bytes go so far.
fn add_to_length(bytes: &mut [u8], at: usize, number: u16) {
    if let Some(length) = bytes.get_mut(at..at + 2) {
        let old = u16::from_be_bytes([length[0], length[1]]);
        length.copy_from_slice(&old.wrapping_add(number).to_be_bytes());
    }
}

/// Puts other bytes in a place and sets the lengths right.
fn replace(bytes: &mut Vec<u8>, place: Range<usize>, by: &[u8], lengths: &[usize]) {
    let growth = by.len().wrapping_sub(place.len());
    bytes.splice(place, by.iter().copied());
    for &at in lengths {
        add_to_length(bytes, at, growth as u16);
    }
}

/// Cuts the end off; in half of the cases the record's own length agrees.
fn cut(random: &mut Random, bytes: &mut Vec<u8>) {
    let length = bytes.len();
    let start = random.below(length);
    let lengths = &[1][..random.below(2)];
    replace(bytes, start..length, &[], lengths);
}

fn change_byte(random: &mut Random, bytes: &mut [u8]) {
    let place = random.below(bytes.len());
    if let Some(changed) = bytes.get_mut(place) {
        *changed = random.byte();
    }
}

/// Makes a field's length one too many, one too few, or anything.
fn change_length(random: &mut Random, bytes: &mut [u8], field: &Place) {
    let number = [1, u16::MAX, random.bits() as u16][random.below(3)];
    add_to_length(bytes, field.start + 1, number);
}

fn swap_tags(bytes: &mut [u8], field: &Place, other: &Place) {
    if !bytes.is_empty() {
        bytes.swap(field.start, other.start);
    }
}

/// Swaps a field with the one after it in the same run.
fn swap_with_next(bytes: &mut [u8], field: &Place, places: &[Place]) {
    let is_next = |other: &&Place| other.start == field.end && other.lengths == field.lengths;
    if let Some(next) = places.iter().find(is_next) {
        bytes[field.start..next.end].rotate_left(field.end - field.start);
    }
}

/// Adds copies of a field behind it; the numbers are the limits of elements.
fn repeat(random: &mut Random, bytes: &mut Vec<u8>, field: &Place) {
    let times = [1, 8, 16, 64][random.below(4)];
    let copies = bytes[field.start..field.end].repeat(times);
    replace(bytes, field.end..field.end, &copies, &field.lengths);
}

/// Puts equal bytes into a field's value; in one of four cases no length agrees.
/// 256 are over a string's limit, and 1040, which are 65 ids, over any.
fn insert(random: &mut Random, bytes: &mut Vec<u8>, field: &Place) {
    let number = [1, 16, 256, 1040][random.below(4)];
    let inserted = vec![random.byte(); number];
    let value = (field.end - field.start).saturating_sub(HEADER);
    let at = field.end - random.below(value + 1);
    let lengths = [&field.lengths[..], &[field.start + 1]].concat();
    let agreeing = if random.below(4) == 0 {
        0
    } else {
        lengths.len()
    };
    replace(bytes, at..at, &inserted, &lengths[..agreeing]);
}

fn append(random: &mut Random, bytes: &mut Vec<u8>) {
    for _ in 0..=random.below(16) {
        bytes.push(random.byte());
    }
}
