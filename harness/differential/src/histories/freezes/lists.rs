//! Names near the scopes of freezes, and lists of them.

use krabka_metadata::MetadataImage;
use oracle::freeze_list::{MOST_BYTES, MOST_NAMES, list};
use oracle::shrink::shorter;
use wire::Random;

use crate::images::frozen_names;

/// Of a long scope so many beginnings.
const BEGINNINGS: usize = 6;
/// A word has at most so many of these letters.
const LETTERS: [&str; 5] = ["a", "b", "_", "-", "é"];
const MOST_LETTERS: usize = 5;

/// A word over a few letters, so that words begin each other.
pub fn word(random: &mut Random) -> String {
    let count = random.below(MOST_LETTERS + 1);
    (0..count).map(|_| random.pick(&LETTERS)).collect()
}

/// The names of topics, the scopes of freezes, and beside both their beginnings
/// and what comes next after them. Ascending.
pub fn near_scopes(image: &MetadataImage) -> Vec<String> {
    let mut names = frozen_names(image);
    for freeze in image.topic_freezes() {
        let scope = freeze.scope.as_str();
        let places = scope.char_indices().take(BEGINNINGS);
        names.extend(places.map(|(place, _)| scope[..place].to_owned()));
        names.extend([format!("{scope}!"), format!("{scope}a"), behind(scope)]);
    }
    names.retain(|name| name.len() <= MOST_BYTES);
    names.into_iter().collect()
}

/// A name above all that begin with the scope: its last letter is the next one.
fn behind(scope: &str) -> String {
    let mut name = scope.to_owned();
    let next = name.pop().and_then(|last| char::from_u32(last as u32 + 1));
    name.extend(next);
    name
}

/// Any one of the names, behind a few that are not above it.
pub fn ending<'a>(random: &mut Random, names: &'a [String]) -> Vec<&'a str> {
    let last = random.below(names.len());
    let count = random.below(4);
    let mut chosen = chosen(random, &names[..=last], count);
    chosen.push(&names[last]);
    chosen
}

/// None, one, two, a few, many, or as many as there may be.
pub fn drawn<'a>(random: &mut Random, names: &'a [String]) -> Vec<&'a str> {
    let counts = [0, 1, 2, random.below(8), random.below(40), MOST_NAMES];
    let count = random.pick(&counts);
    chosen(random, names, count)
}

/// So many of the names, any of them more than once, in order.
fn chosen<'a>(random: &mut Random, names: &'a [String], count: usize) -> Vec<&'a str> {
    let mut places: Vec<usize> = (0..count).map(|_| random.below(names.len())).collect();
    places.sort_unstable();
    places.iter().map(|place| names[*place].as_str()).collect()
}

/// A list with one change, of its names or of its bytes.
pub fn damaged(random: &mut Random, names: &[&str]) -> Vec<u8> {
    match random.below(2) {
        0 => list(&other_names(random, names)),
        _ => other_bytes(random, list(names)),
    }
}

/// Two names in each other's places; a name more that is too long, no text, or
/// cut in a letter; or too many names.
fn other_names(random: &mut Random, names: &[&str]) -> Vec<Vec<u8>> {
    let mut names: Vec<Vec<u8>> = names.iter().map(|name| name.as_bytes().to_vec()).collect();
    let (one, place) = (random.below(names.len()), random.below(names.len() + 1));
    match random.below(5) {
        0 if place < names.len() => names.swap(one, place),
        1 => names.insert(place, vec![b'n'; MOST_BYTES + 1 + random.below(50)]),
        2 => names.insert(place, vec![0xff; 1 + random.below(300)]),
        3 => names.insert(place, b"room\xc3".to_vec()),
        _ => {
            let last = names.last().cloned().unwrap_or_default();
            names.resize(MOST_NAMES + 1 + random.below(3), last);
        }
    }
    names
}

/// Cut anywhere, with a byte changed, the first length changed, or a byte more.
fn other_bytes(random: &mut Random, mut bytes: Vec<u8>) -> Vec<u8> {
    let (byte, place) = (random.byte(), random.below(bytes.len()));
    match random.below(4) {
        _ if bytes.is_empty() => bytes.push(byte),
        0 => bytes.truncate(place),
        1 => bytes[place] = byte,
        2 => bytes[place % 2] = byte,
        _ => bytes.push(byte),
    }
    bytes
}

/// The names of a list, each with its length, and what comes behind them.
pub fn parts(list: &[u8]) -> Vec<Vec<u8>> {
    let (mut parts, mut rest) = (Vec::new(), list);
    while !rest.is_empty() {
        let (part, after) = rest.split_at(first(rest));
        parts.push(part.to_vec());
        rest = after;
    }
    parts
}

/// Where the first name ends, or else the bytes.
fn first(list: &[u8]) -> usize {
    let length = list.first_chunk().map(|length| u16::from_be_bytes(*length));
    let end = length.map_or(list.len(), |length| 2 + usize::from(length));
    end.min(list.len())
}

/// The part with shorter names.
pub fn simpler(part: &[u8]) -> Vec<Vec<u8>> {
    let name = part.get(2..).unwrap_or_default();
    let ends = shorter(name.len()).into_iter();
    ends.map(|end| list(&[&name[..end]])).collect()
}
