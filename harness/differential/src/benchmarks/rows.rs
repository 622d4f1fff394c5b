//! Every operation that takes an image, on the full images of all sizes.

use std::array::from_fn;

use super::times::Times;
use super::{SIZES, changes, lookups, restarts};
use crate::images::Full;

/// One operation on one image.
pub struct Timed {
    pub name: &'static str,
    pub beside: &'static str,
    pub times: Times,
}

impl Timed {
    /// `beside` says what the Rust does.
    pub fn of<P, R>(
        name: &'static str,
        beside: &'static str,
        proved: impl FnMut() -> P,
        rust: impl FnMut() -> R,
    ) -> Self {
        Self {
            name,
            beside,
            times: Times::of(proved, rust),
        }
    }
}

/// One operation on the images of all sizes.
pub struct Row {
    pub name: &'static str,
    pub beside: &'static str,
    pub times: [Times; SIZES.len()],
}

impl Row {
    /// The better times of both.
    pub fn best(self, other: &Self) -> Self {
        let best = |place: usize| self.times[place].best(other.times[place]);
        Self {
            times: from_fn(best),
            ..self
        }
    }

    /// How much longer the proved library takes on the last image, which is
    /// four times as large as the one before.
    pub fn growth(&self) -> f64 {
        let [.., before, last] = self.times;
        last.proved / before.proved
    }
}

pub fn measure(images: &[Full; SIZES.len()]) -> Vec<Row> {
    let columns = images.each_ref().map(timed);
    let row = |place: usize| Row {
        name: columns[0][place].name,
        beside: columns[0][place].beside,
        times: columns.each_ref().map(|column| column[place].times),
    };
    (0..columns[0].len()).map(row).collect()
}

/// Every operation on one image.
fn timed(full: &Full) -> Vec<Timed> {
    [
        changes::measure(full),
        lookups::measure(full),
        restarts::measure(full),
    ]
    .into_iter()
    .flatten()
    .collect()
}
