//! The record bytes of docs/FORMAT.md: the shape table, a reader, and the
//! reference's records to bytes and back, Kafka's own bytes of some records,
//! damaged copies, and random numbers.

pub mod choices;
mod damage;
mod decode;
mod encode;
mod hex;
pub mod kafka;
mod offset;
mod random;
mod read;
mod run;
pub mod table;
mod write;

pub use damage::damaged;
pub use decode::decode;
pub use encode::{encode, encoded, encoded_all, field};
pub use hex::hex;
pub use offset::{LOG_OFFSET, NO_RECORD, encoded_offset};
pub use random::Random;
pub use read::{
    HEADER, OVER_A_LIMIT, PAST_THE_END, REPEATED, UNKNOWN_KIND, WRONG_FIELD, read, read_logged,
};
pub use run::Run;
pub use write::{Lists, TOO_SHORT, write};
