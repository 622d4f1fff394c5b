//! Compares the entry points of images with the harness's own answers and with
//! the reference's images of generated histories.

pub(crate) mod answers;
mod buffers;
mod cases;
mod exact;
mod full;
mod history;
mod listings;
mod lookups;
mod moves;
mod names;
mod open;
mod rules;
mod subject;
mod tally;
mod verdicts;

pub use buffers::compare_random;
pub use cases::compare_cases;
pub(crate) use exact::shown;
pub use full::Full;
pub(crate) use full::{FROZEN, plan_name};
pub use history::compare_history;
pub use listings::compare_listing;
pub(crate) use lookups::{compare_record, compare_refused};
pub use moves::compare_moves;
pub use names::compare_names;
pub use open::compare_open;
pub(crate) use rules::frozen_names;
pub(crate) use subject::{Subject, knobs};
pub use tally::Tally;

pub use crate::Compared;

/// All lookups by lawful arguments, listings and the snapshot of `image`, which
/// holds what the subject does.
pub(crate) fn compare_stored(tally: &mut Tally, subject: &Subject, image: &[u8]) -> Compared {
    lookups::compare_stored(tally, subject, image)?;
    rules::compare_stored(tally, subject, image)
}
