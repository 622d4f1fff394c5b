//! Histories drawn from a seed.

use krabka_metadata::{MetadataImage, MetadataRecord};
use oracle::generate::{Generator, Knobs};
use oracle::held::is_held;
use oracle::image::{FIXED_ROOM, MOST_CAPACITY, weight};
use wire::{Random, damaged, encoded};

use super::History;
use super::no_image::compare_near;
use super::reference::Reference;
use crate::images::{Compared, Tally, knobs};

/// A history draws at most so many records.
const STEPS: usize = 60;
/// A record in so many is followed by damaged copies of it.
const DAMAGED: usize = 6;
/// A list has at most so many nodes.
const MOST_NODES: usize = 64;
/// An offset in so many goes to an end of i64, or just beyond.
const TO_AN_END: usize = 4;

/// Compares the history of a seed at several capacities.
pub fn compare_drawn(tally: &mut Tally, seed: u64) -> Compared {
    let mut random = Random::beside(seed);
    let drawn = Drawn::of(&mut random, seed);
    for capacity in capacities(&mut random, drawn.reached) {
        let history = History {
            capacity,
            validated: drawn.validated,
            inputs: drawn.inputs.clone(),
        };
        let course = history.compare(tally)?;
        compare_near(tally, &mut random, &course, &history.inputs)?;
    }
    Ok(())
}

/// All room; as much as the history needs, and one byte less; and any amount
/// below that, where room runs out often.
pub fn capacities(random: &mut Random, reached: usize) -> [usize; 4] {
    let below = FIXED_ROOM + random.below(reached - FIXED_ROOM + 1);
    [MOST_CAPACITY, reached, reached - 1, below]
        .map(|capacity| capacity.clamp(FIXED_ROOM, MOST_CAPACITY))
}

pub struct Drawn {
    pub validated: bool,
    pub inputs: Vec<Vec<u8>>,
    /// The greatest weight on the way, by the reference alone.
    pub reached: usize,
}

impl Drawn {
    pub fn of(random: &mut Random, seed: u64) -> Self {
        Self::by(random, seed, knobs(seed))
    }

    pub fn by(random: &mut Random, seed: u64, knobs: Knobs) -> Self {
        let mut generator = Generator::new(seed, knobs);
        let mut reference = Reference::new();
        let mut drawn = Self {
            validated: knobs.validated,
            inputs: Vec::new(),
            reached: FIXED_ROOM,
        };
        for _ in 0..=random.below(STEPS) {
            let mut record = generator.record(&reference.image);
            to_an_end(random, &reference.image, &mut record);
            for input in inputs(random, &record) {
                reference.take(&input, drawn.validated);
                drawn.inputs.push(input);
                let weight = weight(&reference.observed());
                drawn.reached = drawn.reached.max(weight);
            }
        }
        drawn
    }
}

/// Turns some offset advances into ones whose sum is the last that i64 has, or
/// the first that it has not. The generator seldom draws them.
fn to_an_end(random: &mut Random, image: &MetadataImage, record: &mut MetadataRecord) {
    let MetadataRecord::V1PartitionOffsetAdvance(advance) = record else {
        return;
    };
    if random.below(TO_AN_END) == 0 {
        let offset = image.partition_next_offset(&advance.topic, advance.partition);
        let end = [i64::MAX, i64::MIN][random.below(2)];
        let beyond = end.signum() * random.below(2) as i64;
        let count = end.wrapping_sub(offset.unwrap_or(0));
        advance.count = count.wrapping_add(beyond);
    }
}

/// A record, and for some of them copies: cut, with one byte changed, with any
/// damage, and of a partition with a node twice in the replicas. Some of these
/// are records too, but never the last; those that are not held against the
/// reference are left out.
fn inputs(random: &mut Random, record: &MetadataRecord) -> Vec<Vec<u8>> {
    let bytes = encoded(record);
    if random.below(DAMAGED) != 0 {
        return vec![bytes];
    }
    let cut = bytes[..random.below(bytes.len())].to_vec();
    let mut changed = bytes.clone();
    changed[random.below(bytes.len())] = random.byte();
    let any = damaged(random, &bytes);
    let repeated = repeated(random, record.clone());
    let repeated = repeated.map(|record| encoded(&record));
    [bytes, cut, changed, any]
        .into_iter()
        .chain(repeated)
        .filter(|input| is_held(input))
        .collect()
}

/// A partition with one of its nodes once more, at the end of its replicas.
fn repeated(random: &mut Random, mut record: MetadataRecord) -> Option<MetadataRecord> {
    let replicas = match &mut record {
        MetadataRecord::V1Partition(partition) => &mut partition.replicas,
        MetadataRecord::V1PartitionUpdate(update) => &mut update.partition.replicas,
        _ => return None,
    };
    if replicas.is_empty() || replicas.len() == MOST_NODES {
        return None;
    }
    replicas.push(replicas[random.below(replicas.len())]);
    Some(record)
}
