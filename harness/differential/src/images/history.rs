//! Images of one generated history, after more and more of its records.

use krabka_metadata::MetadataRecord;
use oracle::image::{FIXED_ROOM, MOST_CAPACITY, image};
use oracle::shrink::{self, simpler_held};
use wire::{Random, decode, encoded};

use super::subject::{Subject, applied};
use super::{Compared, Tally, buffers, exact, lookups, rules, verdicts};
use crate::histories::all_told;

/// After how many records an image is looked at.
const LENGTHS: [usize; 8] = [1, 2, 4, 8, 16, 32, 64, usize::MAX];
/// The steps of a search for the least history: many buffers are compared at each.
const STEPS: usize = 1_000;

/// Compares on the images of the history of a seed. The first difference comes
/// with the fewest of its records that show one.
pub fn compare_history(tally: &mut Tally, seed: u64) -> Compared {
    let records = applied(seed);
    for length in LENGTHS {
        let records = &records[..length.min(records.len())];
        compare_image(tally, records, seed)
            .map_err(|difference| least(records, seed, difference))?;
    }
    Ok(())
}

/// The difference with the fewest and simplest records that show one.
fn least(records: &[MetadataRecord], seed: u64, difference: String) -> String {
    let inputs: Vec<Vec<u8>> = records.iter().map(encoded).collect();
    let simpler = |input: &Vec<u8>| simpler_held(input);
    let (inputs, difference) = shrink::least(STEPS, difference, &inputs, simpler, |inputs| {
        let decoded = inputs.iter().filter_map(|input| decode(input).ok());
        let records: Vec<MetadataRecord> = decoded.map(|(record, _)| record).collect();
        compare_image(&mut Tally::default(), &records, seed)
    });
    let inputs = all_told(&inputs);
    format!("{difference}\nafter these records:\n{inputs}")
}

/// The image after these records at several capacities, and buffers near it.
fn compare_image(tally: &mut Tally, records: &[MetadataRecord], seed: u64) -> Compared {
    let subject = Subject::of(records);
    if subject.weight > MOST_CAPACITY {
        tally.count("images of histories", "too large");
        return Ok(());
    }
    let mut random = Random::beside(seed);
    let more = subject.weight + 1 + random.below(64);
    for capacity in [subject.weight, more.min(MOST_CAPACITY), MOST_CAPACITY] {
        let image = image(&subject.observed, capacity).expect("contents that fit");
        let made = || format!("the image at {capacity}");
        exact::expect(tally, "images of histories", &image, true, made)?;
        lookups::compare(tally, &subject, &image)?;
        rules::compare(tally, &subject, &image)?;
        verdicts::compare(tally, &subject, &image, seed)?;
        let places = match capacity == subject.weight {
            true => buffers::places(&mut random, &image),
            false => buffers::some_places(&mut random, &image),
        };
        buffers::compare_changed(tally, &mut random, &image, &places)?;
    }
    compare_below(tally, &subject)?;
    buffers::compare_edited(tally, &mut random, &subject.layout)
}

/// The same entries at one byte less than they weigh.
fn compare_below(tally: &mut Tally, subject: &Subject) -> Compared {
    let buffer = subject.layout.bytes(subject.weight - 1);
    let made = || format!("a capacity below the weight {}", subject.weight);
    let what = match buffer.len() < FIXED_ROOM {
        true => "capacities below 144",
        false => "capacities one below the weight",
    };
    exact::expect(tally, what, &buffer, false, made)
}
