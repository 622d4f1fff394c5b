//! The crate over the library: records, images, refusals and stacks.

mod images;
mod records;
mod refusals;
mod samples;
mod stacks;
