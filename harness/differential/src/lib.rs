//! The proved library's entry points, by the crate `jeghatuf` in `bindings/rust`, and the
//! inputs on which the programs of this crate compare and time them.

#[cfg(feature = "images")]
pub mod benchmarks;
mod entry;
#[cfg(feature = "images")]
pub mod histories;
#[cfg(feature = "images")]
pub mod images;
mod inputs;
#[cfg(feature = "images")]
pub mod kafka;
#[cfg(feature = "images")]
mod lent;
mod lists;
mod offsets;
mod program;
mod replicas;
pub mod timing;
mod typical;

pub use entry::*;
pub use inputs::Inputs;
pub use lists::least_lists;
pub use offsets::log_offsets;
pub use program::{Asked, Compared, Comparison, Help};
pub use replicas::replica_lists;
pub use typical::typical;
