//! The time of a call, measured on both sides.

use crate::timing::best;

/// Nanoseconds a call, by the proved library and by the Rust.
#[derive(Clone, Copy)]
pub struct Times {
    pub proved: f64,
    pub rust: f64,
}

impl Times {
    pub fn of<P, R>(proved: impl FnMut() -> P, rust: impl FnMut() -> R) -> Self {
        Self {
            proved: best(proved),
            rust: best(rust),
        }
    }

    /// The better time of each side.
    pub fn best(self, other: Self) -> Self {
        Self {
            proved: self.proved.min(other.proved),
            rust: self.rust.min(other.rust),
        }
    }

    pub fn ratio(self) -> f64 {
        self.proved / self.rust
    }
}
