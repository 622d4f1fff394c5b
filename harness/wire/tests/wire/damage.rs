//! No bytes make the reader panic, and what it accepts has one encoding.

use krabka_metadata::MetadataRecord;
use wire::{
    HEADER, LOG_OFFSET, Lists, OVER_A_LIMIT, PAST_THE_END, REPEATED, Random, UNKNOWN_KIND,
    WRONG_FIELD, damaged, decode, encode, encoded_offset, read, write,
};

use crate::samples;

/// The bytes of the filled and of the emptied records, and of log offsets.
fn good() -> Vec<Vec<u8>> {
    let filled = samples::filled().into_iter().map(|(record, _)| record);
    let records: Vec<MetadataRecord> = filled.chain(samples::emptied()).collect();
    let offsets = [-1, 0, i64::MAX].map(encoded_offset);
    records.iter().flat_map(encode).chain(offsets).collect()
}

/// The bytes are refused with one of `read`'s numbers, or they decode to a
/// record that encodes to them again; a log offset is written again.
fn holds(bytes: &[u8]) {
    let answer = read(bytes);
    match decode(bytes) {
        _ if answer.is_ok() && bytes[0] == LOG_OFFSET => {
            let mut out = vec![0; bytes.len()];
            let written = write(&Lists::of(bytes), &mut out);
            assert_eq!(written, answer);
            assert!(written.is_ok_and(|used| out[..used] == bytes[..used]));
            assert_eq!(decode(bytes), Err(UNKNOWN_KIND));
        }
        Err(UNKNOWN_KIND) if bytes[0] == LOG_OFFSET => assert_eq!(answer, Err(WRONG_FIELD)),
        Ok((record, used)) => {
            assert_eq!(answer, Ok(used));
            assert_eq!(encode(&record).unwrap(), bytes[..used]);
        }
        Err(number) => {
            assert_eq!(answer, Err(number));
            let numbers = [
                PAST_THE_END,
                UNKNOWN_KIND,
                WRONG_FIELD,
                OVER_A_LIMIT,
                REPEATED,
            ];
            assert!(numbers.contains(&number), "{bytes:?}");
        }
    }
}

#[test]
fn a_cut_record_runs_past_the_end() {
    for bytes in good() {
        for length in 0..bytes.len() {
            assert_eq!(read(&bytes[..length]), Err(PAST_THE_END));
        }
    }
}

#[test]
fn cut_bodies_hold() {
    for bytes in good() {
        for length in HEADER..bytes.len() {
            let mut cut = bytes[..length].to_vec();
            let body = u16::try_from(length - HEADER).unwrap();
            cut[1..HEADER].copy_from_slice(&body.to_be_bytes());
            holds(&cut);
        }
    }
}

#[test]
fn changed_bytes_hold() {
    for mut bytes in good() {
        for place in 0..bytes.len() {
            let kept = bytes[place];
            for byte in 0..=u8::MAX {
                bytes[place] = byte;
                holds(&bytes);
            }
            bytes[place] = kept;
        }
    }
}

#[test]
fn damaged_records_hold() {
    let random = &mut Random::new(1);
    let good = good();
    let mut answers = [0; 21];
    for _ in 0..2_000 {
        for bytes in &good {
            let once = damaged(random, bytes);
            let twice = damaged(random, &once);
            holds(&once);
            holds(&twice);
            answers[usize::from(read(&once).err().unwrap_or(0))] += 1;
        }
    }
    for number in [0, 2, 3, 4, 5] {
        assert!(answers[number] > 100, "{answers:?}");
    }
    // Only one field of two kinds can have a repeat.
    assert!(answers[usize::from(REPEATED)] > 20, "{answers:?}");
}

#[test]
fn any_bytes_can_be_damaged() {
    let random = &mut Random::new(2);
    for length in 0..8 {
        let bytes: Vec<u8> = (0..length).collect();
        for _ in 0..1_000 {
            holds(&damaged(random, &bytes));
        }
    }
}
