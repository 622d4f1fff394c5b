//! Tests of the record bytes, each module one subject.

mod damage;
mod faults;
mod format;
mod kafka;
mod limits;
mod round_trip;
mod runs;
mod samples;
