//! The entry points with their numbers and the caller's own outputs: those of
//! `jeghatuf::calls` as they are, and some in the form in which they are compared here.

#[cfg(feature = "images")]
mod runs;
#[cfg(feature = "images")]
mod verdicts;

use jeghatuf::calls;
use wire::Lists;

pub use calls::read;
#[cfg(feature = "images")]
pub use calls::{
    broker, compare, downgrade, features_epoch, freeze, freezes, history, is_image, kafka_read,
    kafka_write, log_offset, open, partition, short_count, snapshot, throttle, topic, topic_by_id,
    view_freeze, view_partition, view_snapshot, view_topic,
};
#[cfg(feature = "images")]
pub use runs::*;
#[cfg(feature = "images")]
pub use verdicts::*;

/// Writes the record that some lists say. The bytes written.
pub fn write(lists: &Lists, out: &mut [u8]) -> Result<usize, u8> {
    let Lists {
        kind,
        tags,
        lengths,
        values,
    } = lists;
    calls::write(*kind, tags, lengths, values, out)
}
