//! One input to the library, and what it makes of its own answer.

use krabka_metadata::MetadataRecord;
use wire::kafka::{is_plain, read, write};
use wire::{Random, decode, encoded, hex};

use crate::images::{Compared, Tally, compare_record, compare_refused};
use crate::lent::compare_lent;
use crate::{kafka_read, kafka_write};

/// No record of the four kinds is longer, neither ours nor Kafka's; outputs of
/// refused calls are about so long.
const ROOM: usize = 320;

/// Reads Kafka's bytes, and writes back what was read.
pub fn compare_read(tally: &mut Tally, random: &mut Random, input: &[u8]) -> Compared {
    let expected = read(input).map(|(record, used)| (record, used as u64));
    let call = |out: &mut [u8], used: &mut [u64]| kafka_read(input, out, used);
    compare_lent(tally, random, "read", &expected, ROOM, call)
        .and_then(|()| match &expected {
            Ok((record, used)) => compare_written_back(tally, &input[..*used as usize], record),
            Err(_) => Ok(()),
        })
        .map_err(|difference| format!("{difference}\nof Kafka's bytes {}", hex(input)))
}

/// What was read "with shortest varints and no tagged fields writes back to its
/// bytes", and else to such a form of them.
fn compare_written_back(tally: &mut Tally, input: &[u8], record: &[u8]) -> Compared {
    let (expected, told) = match is_plain(input) {
        true => (Ok(input.to_vec()), "its bytes"),
        false => (write(record), "shorter ones"),
    };
    tally.count("written back", told);
    let answer = written(record);
    match answer == expected {
        true => Ok(()),
        false => Err(format!("written back to {answer:x?}, not {expected:x?}")),
    }
}

/// Writes our record, and reads back what was written.
pub fn compare_write(tally: &mut Tally, input: &[u8]) -> Compared {
    let what = "written";
    let question = || format!("our record {}", hex(input));
    let call = |out: &mut [u8]| kafka_write(input, out);
    match write(input) {
        Ok(bytes) => {
            compare_record(tally, what, question, Some(bytes.clone()), call)?;
            compare_read_back(tally, &bytes, input)
                .map_err(|difference| format!("{difference}\nof {}", question()))
        }
        Err(number) => compare_refused(tally, what, question, number, call),
    }
}

/// "A written record reads back alike" but for a topic's count and replication
/// factor, and all of its bytes are used.
fn compare_read_back(tally: &mut Tally, bytes: &[u8], input: &[u8]) -> Compared {
    let (mut out, mut used) = ([0; ROOM], [0]);
    let answer = kafka_read(bytes, &mut out, &mut used).map(|length| out[..length].to_vec());
    let (record, _) = decode(input).map_err(|number| format!("no record: {number}"))?;
    let (expected, told) = uncounted(record);
    tally.count("read back", told);
    match answer.as_ref() == Ok(&expected) && used[0] == bytes.len() as u64 {
        true => Ok(()),
        false => Err(format!(
            "read back as {answer:x?}, {used:?} bytes used, not {expected:x?}"
        )),
    }
}

/// A record's bytes, a topic's without its count and replication factor; and
/// whether it had them.
fn uncounted(record: MetadataRecord) -> (Vec<u8>, &'static str) {
    let before = encoded(&record);
    let after = match record {
        MetadataRecord::V1Topic(mut topic) => {
            (topic.partitions, topic.replication_factor) = (0, 0);
            encoded(&MetadataRecord::V1Topic(topic))
        }
        _ => before.clone(),
    };
    match before == after {
        true => (after, "alike"),
        false => (after, "alike but for count and factor"),
    }
}

/// What the library writes for a record.
fn written(record: &[u8]) -> Result<Vec<u8>, u8> {
    let mut out = [0; ROOM];
    let length = kafka_write(record, &mut out)?;
    Ok(out[..length].to_vec())
}
