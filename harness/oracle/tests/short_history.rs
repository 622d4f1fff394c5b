//! The counter of short histories: held to known answers, and to the stored lines
//! of the program `test_short_histories`.

mod vectors;

use std::collections::BTreeSet;

use oracle::facts::build::{delete_topic, feature_level};
use oracle::short_history::{Counter, LONGEST, MOST_RECORDS, history, records};
use oracle::verdict::PAST_THE_LAST;
use vectors::stored_lines;
use wire::{
    OVER_A_LIMIT, PAST_THE_END, TOO_SHORT, UNKNOWN_KIND, encoded, encoded_all, encoded_offset, hex,
};

#[test]
fn there_are_as_many_as_the_powers_add_up_to() {
    let counts = (1..=MOST_RECORDS).map(|records| Counter::new(records).count());
    let expected = [5, 31, 121, 341, 781, 1_555, 2_801, 4_681];
    assert_eq!(counts.collect::<Vec<usize>>(), expected);
}

#[test]
fn two_records_in_order() {
    let spelt = |positions: Vec<usize>| -> String {
        let digits = positions.iter().map(|position| position.to_string());
        digits.collect()
    };
    let first: Vec<String> = Counter::new(2).take(16).map(spelt).collect();
    let expected = [
        "", "0", "1", "00", "01", "10", "11", "000", "001", "010", "011", "100", "101", "110",
        "111", "0000",
    ];
    assert_eq!(first, expected);
    assert_eq!(Counter::new(2).last().map(spelt).as_deref(), Some("1111"));
}

/// Each is above the one before it, by its length and then from the left, and
/// none is left out: so many are as long as the powers say.
#[test]
fn every_history_stands_once_and_in_order() {
    for count in 1..=MOST_RECORDS {
        let all: Vec<Vec<usize>> = Counter::new(count).collect();
        let key = |positions: &Vec<usize>| (positions.len(), positions.clone());
        assert!(all.windows(2).all(|pair| key(&pair[0]) < key(&pair[1])));
        assert!(all.iter().flatten().all(|position| *position < count));
        for length in 0..=LONGEST {
            let as_long = all.iter().filter(|positions| positions.len() == length);
            assert_eq!(as_long.count(), count.pow(length as u32));
        }
    }
}

#[test]
fn equal_records_at_two_positions_count_as_two() {
    let record = encoded(&feature_level("a", 1));
    let twice = record.repeat(2);
    let all: Vec<Vec<u8>> = (0..31)
        .map(|number| history(&twice, number).expect("a history"))
        .collect();
    assert_eq!(all.iter().collect::<BTreeSet<_>>().len(), LONGEST + 1);
    assert_eq!((&all[1], &all[2]), (&record, &record));
    assert_eq!(history(&twice, 31), Err(PAST_THE_LAST));
}

#[test]
fn the_first_refusal_decides() {
    let record = encoded(&delete_topic("p"));
    let eight = record.repeat(MOST_RECORDS);
    let torn = &record[..record.len() - 1];
    let behind = |bytes: &[u8]| [&record[..], &record, bytes, &[27, 0, 0]].concat();
    for (input, number) in [
        (Vec::new(), OVER_A_LIMIT),
        (record.repeat(MOST_RECORDS + 1), OVER_A_LIMIT),
        ([&eight[..], torn].concat(), OVER_A_LIMIT),
        ([&eight[..], &[27, 0, 0]].concat(), OVER_A_LIMIT),
        (behind(&[28, 0, 0]), UNKNOWN_KIND),
        ([&record[..], torn].concat(), PAST_THE_END),
    ] {
        assert_eq!(records(&input), Err(number), "{}", hex(&input));
        for place in [0, u64::MAX] {
            assert_eq!(history(&input, place), Err(number));
        }
    }
    let offset = [encoded_offset(7), record].concat();
    assert_eq!(records(&offset).map(|records| records.len()), Ok(2));
}

#[test]
fn the_ends_of_the_numbers() {
    let records: Vec<_> = (1..=8).map(|level| feature_level("a", level)).collect();
    let input = encoded_all(&records);
    let last = encoded(&records[7]).repeat(LONGEST);
    assert_eq!(history(&input, 0), Ok(Vec::new()));
    assert_eq!(history(&input, 4_680), Ok(last));
    for number in [4_681, 1 << 32, u64::MAX] {
        assert_eq!(history(&input, number), Err(PAST_THE_LAST));
    }
}

#[test]
fn the_stored_lines_are_the_counters() {
    for (line, expected) in stored_lines("test_short_histories") {
        assert_eq!(answer(&line), expected, "{}", hex(&line));
    }
}

/// What the program says to a line: the output's bytes, the number, the records.
fn answer(line: &[u8]) -> String {
    let (room, rest) = line.split_first_chunk().expect("the output's bytes");
    let (number, input) = rest.split_first_chunk().expect("a number");
    let room = usize::from(u16::from_be_bytes(*room));
    match history(input, u64::from_be_bytes(*number)) {
        Ok(bytes) if bytes.len() > room => TOO_SHORT.to_string(),
        Ok(bytes) => format!("0 {} {}", bytes.len(), hex(&bytes)),
        Err(number) => number.to_string(),
    }
}
