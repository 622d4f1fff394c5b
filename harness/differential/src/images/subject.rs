//! The reference's image after some records, and its layout.

use krabka_metadata::{MetadataImage, MetadataRecord};
use oracle::generate::{Generator, Knobs};
use oracle::image::{layout, weight};
use oracle::layout::Layout;
use oracle::observe::{Observed, Witness, observe};
use oracle::verdict::offset_leaves_i64;
use uuid::Uuid;

use super::exact::shown;
use super::{Compared, Tally};

/// The records of one generated history.
const STEPS: usize = 90;

/// A comparison on an image that holds what the subject does.
pub type On = fn(&mut Tally, &Subject, &[u8]) -> Compared;

pub struct Subject {
    pub image: MetadataImage,
    pub observed: Observed,
    pub layout: Layout,
    pub weight: usize,
}

impl Subject {
    /// Applies the records without validation, at the log offsets 0, 1, .. An
    /// offset that leaves i64 is left out: the reference has no answer there.
    pub fn of(records: &[MetadataRecord]) -> Self {
        let mut image = MetadataImage::new(Uuid::nil());
        let mut witness = Witness::default();
        for record in records {
            if !offset_leaves_i64(&image, record) {
                witness.see(record);
                image.apply(record);
            }
        }
        let observed = observe(&image, &witness).at(records.len() as i64 - 1);
        Self::beside(image, observed)
    }

    /// An image with what is observed of it.
    pub fn beside(image: MetadataImage, observed: Observed) -> Self {
        Self {
            layout: layout(&observed),
            weight: weight(&observed),
            image,
            observed,
        }
    }

    /// Compares all of `comparisons` on `image`, which holds what this does.
    pub fn compare(&self, tally: &mut Tally, image: &[u8], comparisons: &[On]) -> Compared {
        comparisons
            .iter()
            .try_for_each(|compare| compare(tally, self, image))
            .map_err(|difference| format!("{difference}\nof the image of {}", shown(image)))
    }
}

/// Histories of several kinds: validated, not validated and with old names,
/// within demand 3's premises, and each with few or many values at the limits.
pub fn knobs(seed: u64) -> Knobs {
    Knobs {
        extreme: [0, 0, 1, 4][(seed / 3 % 4) as usize],
        validated: !seed.is_multiple_of(3),
        premises: seed % 3 == 1,
        old_names: seed.is_multiple_of(3),
        ..Knobs::default()
    }
}

/// The records that a generated history applies.
pub fn applied(seed: u64) -> Vec<MetadataRecord> {
    let knobs = knobs(seed);
    let mut image = MetadataImage::new(Uuid::nil());
    let mut records = Generator::new(seed, knobs).history(STEPS);
    records.retain(|record| {
        let applies = knobs.applies(&image, record);
        if applies {
            image.apply(record);
        }
        applies
    });
    records
}
