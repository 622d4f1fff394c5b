//! Records of every kind, built and read, and bytes that are none.

use crate::samples::{freeze, one_of_each, partition, proposal};
use jeghatuf::shapes::{FeatureLevel, LogOffset, Partition, TopicConfig, TopicFreeze};
use jeghatuf::{Kind, PatternType, Record, Refusal, records};

#[test]
fn every_kind_is_written_and_read_back() {
    let all = one_of_each();
    let kinds: Vec<Kind> = all.iter().map(|fields| fields.kind()).collect();
    assert_eq!(kinds, Kind::ALL);
    for fields in all {
        let record = fields.record().unwrap();
        assert_eq!(record.kind(), fields.kind());
        assert_eq!(record.fields(), fields);
        assert_eq!(Record::read(record.as_bytes()), Ok(record));
    }
}

#[test]
fn a_record_that_is_cut_runs_past_the_end() {
    for fields in one_of_each() {
        let record = fields.record().unwrap();
        let bytes = record.as_bytes();
        for end in 0..bytes.len() {
            assert_eq!(Record::read(&bytes[..end]), Err(Refusal::PastTheEnd));
        }
    }
}

/// Whatever is read has fields that make the same bytes, and what is not read is refused.
#[test]
fn damaged_records_are_refused_or_have_fields() {
    let mut state: u64 = 1;
    let mut below = |bound: usize| {
        state = state
            .wrapping_mul(6364136223846793005)
            .wrapping_add(1442695040888963407);
        (state >> 33) as usize % bound
    };
    let (mut read, mut refused) = (0, 0);
    for fields in one_of_each() {
        let record = fields.record().unwrap();
        for _ in 0..200 {
            let mut bytes = record.as_bytes().to_vec();
            let at = below(bytes.len());
            bytes[at] = below(256) as u8;
            match Record::read(&bytes) {
                Ok(record) => {
                    let again = record.fields().record().unwrap();
                    assert_eq!(again.as_bytes(), record.as_bytes());
                    read += 1;
                }
                Err(refusal) => {
                    assert!(refusal.number() <= 5 || refusal == Refusal::Repeated);
                    refused += 1;
                }
            }
        }
    }
    assert!(
        read > 500 && refused > 500,
        "{read} read, {refused} refused"
    );
}

#[test]
fn values_are_held_to_their_limits() {
    let level = |name: String| FeatureLevel { name, level: 1 }.record();
    assert!(level("a".repeat(255)).is_ok());
    for name in ["a".repeat(256), "a".repeat(3_000_000), "ä".repeat(40_000)] {
        assert_eq!(level(name), Err(Refusal::OverALimit));
    }
    let signed = |length| TopicFreeze {
        signature: vec![0; length],
        ..freeze("a", PatternType::Literal)
    };
    assert!(signed(512).record().is_ok());
    for length in [513, 70_000] {
        assert_eq!(signed(length).record(), Err(Refusal::OverALimit));
    }
    for count in [65, 10_000] {
        assert_eq!(partition("a", 0, count).record(), Err(Refusal::OverALimit));
        let directories = vec![[0; 16]; count as usize];
        let long = Partition {
            directories,
            ..partition("a", 0, 3)
        };
        assert_eq!(long.record(), Err(Refusal::OverALimit));
    }
    assert!(partition("a", 0, 64).record().is_ok());
    assert!(proposal(16).record().is_ok());
    for count in [17, 5_000] {
        assert_eq!(proposal(count).record(), Err(Refusal::OverALimit));
    }
    let pairs = |count| TopicConfig {
        topic: "a".into(),
        overrides: (0..count)
            .map(|key| (format!("{key}{}", "k".repeat(240)), "v".repeat(255)))
            .collect(),
    };
    assert!(pairs(64).record().is_ok());
    for count in [65, 2_000] {
        assert_eq!(pairs(count).record(), Err(Refusal::OverALimit));
    }
    assert_eq!(LogOffset { offset: -2 }.record(), Err(Refusal::Wrong));
}

#[test]
fn a_run_of_all_kinds_is_read_record_by_record() {
    let all: Vec<Record> = one_of_each()
        .iter()
        .map(|fields| fields.record().unwrap())
        .collect();
    let run: Vec<u8> = all
        .iter()
        .flat_map(|record| record.as_bytes())
        .copied()
        .collect();
    let read: Result<Vec<Record>, _> = records(&run).collect();
    assert_eq!(read, Ok(all));
    assert_eq!(records(&[]).next(), None);
    assert_eq!(records(&[0; 5]).count(), 1);
}

#[test]
fn a_field_is_found_by_its_tag() {
    for fields in one_of_each() {
        let record = fields.record().unwrap();
        assert_eq!(record.field(0), None);
        assert_eq!(record.field(13), None);
    }
    let record = partition("plan-0042", 1, 2).record().unwrap();
    assert_eq!(record.field(1), Some(&b"plan-0042"[..]));
    assert_eq!(record.field(2), Some(&[0, 0, 0, 1][..]));
    assert_eq!(record.field(7), Some(&[][..]));
}
