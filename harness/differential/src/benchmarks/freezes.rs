//! The freezes of a list of 256 names on full images with few freezes and with
//! many, beside the lookup of one name, those of all, and the Rust's of all.

use std::hint::black_box;

use krabka_metadata::{MetadataRecord, PatternType};
use oracle::facts::build::freeze;
use oracle::freeze_list::{MOST_BYTES, MOST_NAMES, index, list, read, stored};
use wire::choices::PATTERN_TYPES;

use super::SIZES;
use super::times::Times;
use crate::freezes;
use crate::images::{FROZEN, Full, plan_name};
use crate::timing::best;

const CAPACITY: usize = SIZES[SIZES.len() - 1];
/// How many freezes the images have.
const COUNTS: [usize; 3] = [1, 16, 256];

pub struct Freezes {
    pub name: String,
    /// Of the list, and of the Rust's calls for its names.
    pub times: Times,
    /// Nanoseconds for the lookup of one name, and for those of all.
    pub single: f64,
    pub singles: f64,
}

impl Freezes {
    /// The better times of both.
    pub fn best(self, other: &Self) -> Self {
        Self {
            times: self.times.best(other.times),
            single: self.single.min(other.single),
            singles: self.singles.min(other.singles),
            ..self
        }
    }
}

/// The images, each with what is said of it and the names that are asked for.
pub struct Subjects(Vec<(String, Full, Vec<String>)>);

impl Subjects {
    pub fn new() -> Self {
        let plans: Vec<String> = (0..MOST_NAMES as u64).map(plan_name).collect();
        let some = COUNTS.map(|count| {
            let full = Full::frozen(CAPACITY, &of_plans(count, &plans));
            (count.to_string(), full, plans.clone())
        });
        let longest = "n".repeat(MOST_BYTES);
        let nested = (
            "256 that begin each other, one name 256 times".to_owned(),
            Full::frozen(CAPACITY, &beginnings(&longest)),
            vec![longest; MOST_NAMES],
        );
        Self(some.into_iter().chain([nested]).collect())
    }

    pub fn measure(&self) -> Vec<Freezes> {
        let subjects = self.0.iter();
        subjects
            .map(|(told, full, names)| measured(told, full, names))
            .collect()
    }
}

/// A prefix of all plans, and then plans by themselves, of both patterns.
fn of_plans(count: usize, plans: &[String]) -> Vec<MetadataRecord> {
    let step = plans.len() / count;
    let own = (1..count).map(|number| {
        let pattern = PATTERN_TYPES[number % PATTERN_TYPES.len()];
        freeze(&plans[number * step], pattern)
    });
    let all = freeze(FROZEN, PatternType::Prefixed);
    own.chain([all]).collect()
}

/// Every beginning of a name as a prefix, the name itself too.
fn beginnings(name: &str) -> Vec<MetadataRecord> {
    let scopes = (0..=name.len()).map(|length| &name[..length]);
    scopes
        .map(|scope| freeze(scope, PatternType::Prefixed))
        .collect()
}

fn measured(told: &str, full: &Full, names: &[String]) -> Freezes {
    let (bytes, list, image) = (&full.bytes[..], list(names), &full.image);
    let (mut out, mut count) = ([0; 2 * MOST_NAMES], [0]);
    let answer = freezes(bytes, &list, &mut out, &mut count);
    assert_eq!(answer, Ok(out.len()), "{told}");
    assert_eq!((out.to_vec(), count[0]), expected(full, names), "{told}");
    let times = Times::of(
        || freezes(black_box(bytes), black_box(&list), &mut out, &mut count),
        || {
            let frozen = names.iter().map(|name| image.topic_freeze(black_box(name)));
            frozen.flatten().count()
        },
    );
    let mut record = [0; 1_024];
    let mut lookup = |name: &str| crate::freeze(black_box(bytes), name.as_bytes(), &mut record);
    Freezes {
        name: told.to_owned(),
        times,
        single: best(|| lookup(&names[names.len() / 2])),
        singles: best(|| names.iter().filter(|name| lookup(name).is_ok()).count()),
    }
}

/// The bytes of the indexes, and how many freezes are read.
fn expected(full: &Full, names: &[String]) -> (Vec<u8>, u64) {
    let (freezes, names) = (stored(&full.image), names.iter().map(String::as_str));
    let indexes = names.clone().map(|name| index(&full.image, &freezes, name));
    let bytes = indexes.flat_map(u16::to_be_bytes).collect();
    let names: Vec<&str> = names.collect();
    (bytes, read(&freezes, &names) as u64)
}
