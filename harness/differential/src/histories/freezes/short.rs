//! All lists of up to three names out of a few, on every set of freezes out of a
//! few.

use krabka_metadata::MetadataRecord;
use oracle::facts::build::freeze;
use oracle::freeze_list::list;
use oracle::image::image;
use wire::Random;
use wire::choices::PATTERN_TYPES;

use super::asked::Asked;
use crate::images::{Compared, Subject, Tally};

const SCOPES: [&str; 4] = ["", "__", "a", "ab"];
const NAMES: [&str; 7] = ["", "_", "__a", "a", "ab", "abc", "b"];
/// The most names of a list.
const MOST: u32 = 3;

pub fn compare_short_freezes(tally: &mut Tally) -> Compared {
    let mut random = Random::new(0);
    let (all, lists) = (freezes(), lists());
    for set in 0..1 << all.len() {
        let subject = Subject::of(&chosen(&all, set));
        let buffer = image(&subject.observed, subject.weight).expect("contents that fit");
        let asked = Asked::new(&buffer, &subject.image);
        for list in &lists {
            asked.compare(tally, &mut random, list)?;
        }
    }
    Ok(())
}

fn freezes() -> Vec<MetadataRecord> {
    let both = |scope| PATTERN_TYPES.map(|pattern| freeze(scope, pattern));
    SCOPES.into_iter().flat_map(both).collect()
}

/// Those whose bit is set.
fn chosen(all: &[MetadataRecord], set: u32) -> Vec<MetadataRecord> {
    let places = (0..all.len()).filter(|place| set >> place & 1 == 1);
    places.map(|place| all[place].clone()).collect()
}

/// In order or not, each name as often as there is a place for it.
fn lists() -> Vec<Vec<u8>> {
    let count = NAMES.len();
    let name = |number: usize, place: u32| NAMES[number / count.pow(place) % count];
    let of_length = |length: u32| {
        (0..count.pow(length)).map(move |number| {
            let names: Vec<&str> = (0..length).map(|place| name(number, place)).collect();
            list(&names)
        })
    };
    (0..=MOST).flat_map(of_length).collect()
}
