//! Buffers near an image, and random ones.

use oracle::image::{FIXED_ROOM, MOST_CAPACITY};
use oracle::layout::{HEAD_SIZE, Layout};
use oracle::shrink::least_bytes;
use wire::{Random, damaged};

use super::{Compared, Tally, exact, lookups, rules, verdicts};

/// Up to this size every byte of an image is changed, above it some are.
const SMALL: usize = 1_024;
const SAMPLED: usize = 120;
/// How often the entries are damaged, and how often some are taken.
const DRAWS: usize = 40;

/// The image with one byte changed, at each of the places to several values.
pub fn compare_changed(
    tally: &mut Tally,
    random: &mut Random,
    image: &[u8],
    places: &[usize],
) -> Compared {
    let mut buffer = image.to_vec();
    for &at in places {
        for value in values(random, image[at]) {
            buffer[at] = value;
            let made = || format!("byte {at} is {value:#04x}, was {:#04x}", image[at]);
            exact::compare(tally, "one byte changed", &buffer, made)?;
        }
        buffer[at] = image[at];
    }
    Ok(())
}

/// Every place of a small image, some of a larger one.
pub fn places(random: &mut Random, image: &[u8]) -> Vec<usize> {
    match image.len() <= SMALL {
        true => (0..image.len()).collect(),
        false => some_places(random, image),
    }
}

/// Some places, mostly in the used part.
pub fn some_places(random: &mut Random, image: &[u8]) -> Vec<usize> {
    let used = u32::from_be_bytes(image[8..12].try_into().expect("four bytes")) as usize;
    let sampled = (0..SAMPLED).map(|n| match n % 6 {
        0 => random.below(HEAD_SIZE),
        1 => random.below(image.len()),
        _ => random.below(used),
    });
    sampled.collect()
}

/// Other values: neighbours, a bit more or less, zero, and any.
fn values(random: &mut Random, old: u8) -> Vec<u8> {
    let mut values = vec![
        old ^ 1,
        old ^ 0x80,
        !old,
        0,
        old.wrapping_add(1),
        old.wrapping_sub(1),
        random.byte(),
    ];
    values.retain(|value| *value != old);
    values.sort_unstable();
    values.dedup();
    values
}

/// The entries moved, repeated, left out and damaged.
pub fn compare_edited(tally: &mut Tally, random: &mut Random, layout: &Layout) -> Compared {
    for place in 0..layout.entries.len() {
        for (edit, edited) in edits(layout, place) {
            let made = || format!("entry {place} {edit}");
            compare_layout(tally, "entries edited", &edited, made)?;
        }
    }
    for _ in 0..DRAWS {
        compare_damaged(tally, random, layout)?;
        compare_some(tally, random, layout)?;
    }
    Ok(())
}

fn edits(layout: &Layout, place: usize) -> [(&'static str, Layout); 4] {
    let edited = |edit: &dyn Fn(&mut Vec<Vec<u8>>)| {
        let mut layout = layout.clone();
        edit(&mut layout.entries);
        layout
    };
    [
        ("left out", edited(&|list| drop(list.remove(place)))),
        (
            "repeated",
            edited(&|list| list.insert(place, list[place].clone())),
        ),
        (
            "moved down",
            edited(&|list| list.swap(place.saturating_sub(1), place)),
        ),
        (
            "moved to the end",
            edited(&|list| list[place..].rotate_left(1)),
        ),
    ]
}

/// One entry damaged in a way that mostly keeps its lengths.
fn compare_damaged(tally: &mut Tally, random: &mut Random, layout: &Layout) -> Compared {
    if layout.entries.is_empty() {
        return Ok(());
    }
    let place = random.below(layout.entries.len());
    let mut edited = layout.clone();
    edited.entries[place] = damaged(random, &layout.entries[place]);
    let made = || format!("entry {place} damaged");
    compare_layout(tally, "an entry damaged", &edited, made)
}

/// Some of the entries, each left out by chance, and some flags turned.
fn compare_some(tally: &mut Tally, random: &mut Random, layout: &Layout) -> Compared {
    let mut some = layout.clone();
    let left_out = 1 + random.below(60);
    some.entries.retain(|_| random.below(100) >= left_out);
    for topic in some.entries.iter_mut().filter(|entry| entry[0] == 1) {
        let flag = topic.last_mut().expect("a topic's flag");
        *flag ^= u8::from(random.below(4) == 0);
    }
    compare_layout(tally, "some of the entries", &some, || {
        "some of the entries, flags turned".to_owned()
    })
}

/// Where the weight fits, just so and with room. An edit may outgrow an image.
fn compare_layout(
    tally: &mut Tally,
    what: &'static str,
    layout: &Layout,
    made: impl Fn() -> String,
) -> Compared {
    let weight = layout.used() + FIXED_ROOM - HEAD_SIZE;
    for capacity in [weight - 36, weight, weight + 200] {
        if capacity <= MOST_CAPACITY {
            exact::compare(tally, what, &layout.bytes(capacity), &made)?;
        }
    }
    Ok(())
}

/// Random bytes of a random length, then the same behind a right header.
pub fn compare_random(tally: &mut Tally, seed: u64) -> Compared {
    let mut random = Random::new(seed);
    let bound = [200, 400, 5_000, MOST_CAPACITY + 2][random.below(4)];
    let length = random.below(bound);
    let mut buffer: Vec<u8> = random.bytes(length);
    compare_least(tally, &buffer, compare_bytes)?;
    if length >= HEAD_SIZE {
        let used = HEAD_SIZE + random.below(length - HEAD_SIZE + 1);
        let layout = Layout {
            epoch: random.bits() as i64,
            kraft: random.bits() as u16,
            offset: random.bits() as i64,
            entries: vec![buffer[HEAD_SIZE..used].to_vec()],
        };
        buffer = layout.bytes(length);
    }
    compare_least(tally, &buffer, |tally, buffer| {
        exact::compare(tally, "random entries", buffer, || "drawn".to_owned())
    })
}

/// A buffer, of which the fewest bytes that show a difference are told.
fn compare_least(
    tally: &mut Tally,
    buffer: &[u8],
    compare: impl Fn(&mut Tally, &[u8]) -> Compared,
) -> Compared {
    compare(tally, buffer).map_err(|difference| {
        let compare = |buffer: &[u8]| compare(&mut Tally::default(), buffer);
        let (buffer, difference) = least_bytes(difference, buffer, compare);
        format!("{difference}\nof {}", exact::shown(&buffer))
    })
}

/// Random bytes are no image, to any operation.
fn compare_bytes(tally: &mut Tally, buffer: &[u8]) -> Compared {
    exact::compare(tally, "random bytes", buffer, || "drawn".to_owned())?;
    if oracle::exact::is_image(buffer) {
        return Ok(());
    }
    lookups::compare_no_image(tally, buffer)?;
    verdicts::compare_no_image(tally, buffer)?;
    rules::compare_no_image(tally, buffer)
}
