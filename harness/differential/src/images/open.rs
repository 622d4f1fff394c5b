//! Open on dirty buffers.

use oracle::image::image;
use oracle::shrink::{self, BYTES};
use wire::Random;

use super::exact::shown;
use super::subject::Subject;
use super::{Compared, Tally, lookups};
use crate::{is_image, open};

const CAPACITIES: [usize; 14] = [
    0, 1, 63, 64, 128, 143, 144, 145, 4_096, 65_535, 65_536, 65_537, 65_600, 131_072,
];

pub fn compare_open(tally: &mut Tally, seed: u64) -> Compared {
    let mut random = Random::new(seed);
    let fresh = Subject::of(&[]);
    for capacity in CAPACITIES {
        for buffer in dirty(&mut random, capacity) {
            compare(tally, &fresh, buffer.clone())
                .map_err(|difference| least(difference, &fresh, &buffer))?;
        }
    }
    Ok(())
}

fn dirty(random: &mut Random, capacity: usize) -> [Vec<u8>; 3] {
    [
        vec![0; capacity],
        vec![0xff; capacity],
        random.bytes(capacity),
    ]
}

/// The difference of a buffer with the least dirt that shows one.
fn least(difference: String, fresh: &Subject, dirty: &[u8]) -> String {
    let with = |dirt: &[(usize, u8)]| {
        let mut buffer = vec![0; dirty.len()];
        for (place, byte) in dirt {
            buffer[*place] = *byte;
        }
        buffer
    };
    let unmoved = |_: &(usize, u8)| Vec::new();
    let dirt: Vec<(usize, u8)> = dirty.iter().copied().enumerate().collect();
    let (dirt, difference) = shrink::least(BYTES, difference, &dirt, unmoved, |dirt| {
        compare(&mut Tally::default(), fresh, with(dirt))
    });
    format!("{difference}\nof {}", shown(&with(&dirt)))
}

/// The image of an empty cluster, or 1 and the buffer as it was.
fn compare(tally: &mut Tally, fresh: &Subject, dirty: Vec<u8>) -> Compared {
    let capacity = dirty.len();
    let (expected, end) = match image(&fresh.observed, capacity) {
        Some(image) => (Ok(0), image),
        None => (Err(1), dirty.clone()),
    };
    let mut buffer = dirty;
    let answer = open(&mut buffer);
    tally.count("Open", answer.map_or_else(u8::from, |_| 0));
    if answer != expected || buffer != end {
        let (buffer, end) = (shown(&buffer), shown(&end));
        return Err(format!(
            "Open of {capacity} bytes: {answer:?} and {buffer}\nexpected is {expected:?} and {end}"
        ));
    }
    if expected.is_err() {
        return Ok(());
    }
    match is_image(&buffer) {
        1 => lookups::compare(tally, fresh, &buffer),
        other => Err(format!("the fresh image of {capacity} bytes is {other}")),
    }
}
