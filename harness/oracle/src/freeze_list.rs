//! 02's answer to a list of names, in the harness's own words: where each name's
//! freeze stands among the stored ones, and how many of these the pass reads.
//! Which freeze a name has the reference says; it has no such list.

use krabka_metadata::{MetadataImage, PatternType, TopicFreezeRecord};
use wire::choices::PATTERN_TYPES;
use wire::{OVER_A_LIMIT, PAST_THE_END, WRONG_FIELD};

/// The most names of a list, and the most bytes of a name.
pub const MOST_NAMES: usize = 256;
pub const MOST_BYTES: usize = 255;
/// The index of a name without a freeze.
pub const NO_FREEZE: u16 = 0xFFFF;

/// The bytes of a list: each name's length, and the name.
pub fn list(names: &[impl AsRef<[u8]>]) -> Vec<u8> {
    names
        .iter()
        .flat_map(|name| listed(name.as_ref()))
        .collect()
}

fn listed(name: &[u8]) -> Vec<u8> {
    let length = u16::try_from(name.len()).expect("a length of two bytes");
    [&length.to_be_bytes(), name].concat()
}

/// The names of a list, or the first refusal.
pub fn names(list: &[u8]) -> Result<Vec<&str>, u8> {
    let (mut names, mut rest) = (Vec::new(), list);
    while !rest.is_empty() {
        if names.len() == MOST_NAMES {
            return Err(OVER_A_LIMIT);
        }
        let (name, after) = split(rest).ok_or(PAST_THE_END)?;
        names.push(judged(name, names.last())?);
        rest = after;
    }
    Ok(names)
}

/// The first name's bytes, and what comes behind them.
fn split(list: &[u8]) -> Option<(&[u8], &[u8])> {
    let (length, rest) = list.split_first_chunk()?;
    rest.split_at_checked(usize::from(u16::from_be_bytes(*length)))
}

/// A name, or why it is refused: it is no text, is below the one before it, or
/// is too long.
fn judged<'a>(name: &'a [u8], before: Option<&&str>) -> Result<&'a str, u8> {
    let text = std::str::from_utf8(name).map_err(|_| WRONG_FIELD)?;
    if before.is_some_and(|before| text < *before) {
        return Err(WRONG_FIELD);
    }
    match name.len() > MOST_BYTES {
        true => Err(OVER_A_LIMIT),
        false => Ok(text),
    }
}

/// The freezes of an image, in the snapshot's order.
pub fn stored(image: &MetadataImage) -> Vec<&TopicFreezeRecord> {
    let mut freezes: Vec<&TopicFreezeRecord> = image.topic_freezes().collect();
    freezes.sort_by_key(|freeze| key(freeze));
    freezes
}

/// Literal scopes come before prefixed ones.
fn key(freeze: &TopicFreezeRecord) -> (bool, &str) {
    let prefixed = freeze.pattern_type == PatternType::Prefixed;
    (prefixed, &freeze.scope)
}

/// Where the freeze of a name stands among the stored ones.
pub fn index(image: &MetadataImage, freezes: &[&TopicFreezeRecord], name: &str) -> u16 {
    let Some(found) = image.topic_freeze(name) else {
        return NO_FREEZE;
    };
    let place = freezes.iter().position(|freeze| key(freeze) == key(found));
    let place = place.expect("a freeze that is stored");
    u16::try_from(place).expect("no image has so many freezes")
}

/// "Of each pattern, in order, those whose scope is not above the last name, and
/// the next one if there is one"; nothing for no names.
pub fn read(freezes: &[&TopicFreezeRecord], names: &[&str]) -> usize {
    let Some(last) = names.last() else {
        return 0;
    };
    let of_pattern = |pattern| {
        let same = freezes
            .iter()
            .filter(|freeze| freeze.pattern_type == pattern);
        let stored = same.clone().count();
        let not_above = same.filter(|freeze| freeze.scope.as_str() <= *last).count();
        stored.min(not_above + 1)
    };
    PATTERN_TYPES.map(of_pattern).iter().sum()
}
