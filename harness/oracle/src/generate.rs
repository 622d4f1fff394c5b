//! Histories of records, drawn from a seed. The pools of names, ids and nodes
//! are small, so that keys collide; values are within 01's limits, sometimes
//! at them. Equal seeds and knobs give equal histories.

mod draw;
mod values;

use krabka_metadata::{MetadataImage, MetadataRecord};
use uuid::Uuid;
use wire::Random;

use crate::verdict::{ACCEPTED, judged, offset_leaves_i64};

/// How often a record is drawn again to find one that Validate accepts.
const TRIES: usize = 8;

#[derive(Debug, Clone, Copy)]
pub struct Knobs {
    /// Percent of the records that are drawn again where Validate refuses.
    pub accepted: u64,
    /// Percent of values at a limit or at an end of their range.
    pub extreme: u64,
    /// Whether a history leaves out what Validate refuses, as 01's do.
    /// Without it every record is applied: a partition may have no topic.
    pub validated: bool,
    /// Whether a validated history keeps to demand 3's premises: no shared
    /// topic id, no changed replica count, no negative epoch.
    pub premises: bool,
    /// Whether topics have names from before 02's rule too, which Validate
    /// refuses: for records that are applied, read or judged by themselves.
    pub old_names: bool,
    /// How often each of the kinds 1 to 25 is drawn.
    pub weights: [u64; 25],
}

impl Default for Knobs {
    fn default() -> Self {
        Self {
            accepted: 50,
            extreme: 4,
            validated: true,
            premises: false,
            old_names: false,
            weights: [
                10, 16, 6, 3, 5, 9, 9, 4, 2, 2, 6, 3, 2, 6, 6, 3, 3, 7, 8, 2, 5, 5, 8, 6, 2,
            ],
        }
    }
}

impl Knobs {
    /// Whether a history applies `record` to `image`. An offset that leaves
    /// i64 is never applied: 01 refuses it and the reference may panic.
    pub fn applies(&self, image: &MetadataImage, record: &MetadataRecord) -> bool {
        let refused = self.validated && judged(image, record) != ACCEPTED;
        !refused && !offset_leaves_i64(image, record)
    }
}

#[derive(Debug, Clone)]
pub struct Generator {
    random: Random,
    knobs: Knobs,
}

impl Generator {
    pub fn new(seed: u64, knobs: Knobs) -> Self {
        let random = Random::new(seed);
        Self { random, knobs }
    }

    /// A next record for a history that has left `image`.
    pub fn record(&mut self, image: &MetadataImage) -> MetadataRecord {
        let wanted = self.random.percent(self.knobs.accepted);
        let mut record = self.draw(image);
        for _ in 0..TRIES {
            if !wanted || judged(image, &record) == ACCEPTED {
                break;
            }
            record = self.draw(image);
        }
        record
    }

    /// A history from a fresh image. The records that it does not apply are
    /// in the list too.
    pub fn history(&mut self, steps: usize) -> Vec<MetadataRecord> {
        let mut image = MetadataImage::new(Uuid::nil());
        let mut records = Vec::with_capacity(steps);
        for _ in 0..steps {
            let record = self.record(&image);
            if self.knobs.applies(&image, &record) {
                image.apply(&record);
            }
            records.push(record);
        }
        records
    }
}
