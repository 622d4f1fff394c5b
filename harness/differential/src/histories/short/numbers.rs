//! The operation that writes the history under a number, held to a counter of the
//! harness's own. The reference has no such numbers.

use std::collections::BTreeSet;

use oracle::facts::build::{delete_topic, feature_level, most_configs, partition_record};
use oracle::short_history::{Counter, LONGEST, MOST_RECORDS, chosen, history as expected};
use oracle::shrink::{least_bytes, least_records};
use oracle::verdict::PAST_THE_LAST;
use wire::{Random, encoded, encoded_offset, field, hex};

use crate::histories::drawn::Drawn;
use crate::history;
use crate::images::{Compared, Tally, compare_record, compare_refused};

/// At the ends of the lengths of eight records, past the last, and far past it.
const NUMBERS: [u64; 14] = [
    0,
    1,
    8,
    9,
    72,
    73,
    584,
    585,
    4_680,
    4_681,
    4_682,
    1 << 32,
    1 << 63,
    u64::MAX,
];
/// How many numbers are drawn for a seed, and below which they mostly are.
const DRAWS: usize = 4;
const MOST_NUMBER: usize = 5_000;
/// The most records of a drawn input: some are too many.
const MOST_DRAWN: usize = 10;

/// All histories of the records, under one number after the other up to the
/// refusal past the last: each is the counter's, and no two are the same.
pub fn all(tally: &mut Tally, records: &[Vec<u8>]) -> Result<Vec<Vec<u8>>, String> {
    let input = records.concat();
    let mut counter = Counter::new(records.len()).map(|positions| chosen(records, &positions));
    let mut histories = Vec::new();
    for number in 0.. {
        let expected = counter.next().ok_or(PAST_THE_LAST);
        compare(tally, &input, number, expected)?;
        match taken(&input, number) {
            Some(bytes) => histories.push(bytes),
            None => break,
        }
    }
    let distinct: BTreeSet<&Vec<u8>> = histories.iter().collect();
    match distinct.len() == histories.len() {
        true => Ok(histories),
        false => Err("a history stands under two numbers".to_owned()),
    }
}

/// The bytes that the operation writes under a number, if there are.
fn taken(input: &[u8], number: u64) -> Option<Vec<u8>> {
    let mut out = vec![0; LONGEST * input.len()];
    let written = history(input, number, &mut out).ok()?;
    out.truncate(written);
    Some(out)
}

/// Compares inputs of known standing under numbers at the ends.
pub fn compare_named_numbers(tally: &mut Tally) -> Compared {
    for input in named() {
        for number in NUMBERS {
            compare(tally, &input, number, expected(&input, number))?;
        }
    }
    Ok(())
}

/// Compares some of a drawn history's inputs, damaged ones too, under drawn
/// numbers.
pub fn compare_drawn_numbers(tally: &mut Tally, seed: u64) -> Compared {
    let mut random = Random::new(seed ^ 0x0F12);
    let mut inputs = Drawn::of(&mut random, seed).inputs;
    inputs.truncate(random.below(MOST_DRAWN + 1));
    let input = inputs.concat();
    for _ in 0..DRAWS {
        let below = random.below(MOST_NUMBER) as u64;
        let any = random.bits();
        let number = random.pick(&[below, below, below, any]);
        compare(tally, &input, number, expected(&input, number))
            .map_err(|difference| least(difference, &inputs, number))?;
    }
    Ok(())
}

/// The difference of fewer and simpler records, under a lower number.
fn least(difference: String, inputs: &[Vec<u8>], number: u64) -> String {
    let differ = |inputs: &[Vec<u8>], number: u64| {
        let input = inputs.concat();
        compare(
            &mut Tally::default(),
            &input,
            number,
            expected(&input, number),
        )
    };
    let (inputs, difference) = least_records(difference, inputs, |inputs| differ(inputs, number));
    let under = |number: &[u8]| differ(&inputs, wide(number));
    let (_, difference) = least_bytes(difference, &number.to_be_bytes(), under);
    difference
}

/// The number of eight bytes or fewer.
fn wide(bytes: &[u8]) -> u64 {
    let put = |number: u64, byte: &u8| number << 8 | u64::from(*byte);
    bytes.iter().fold(0, put)
}

/// No records; one, two that are equal, eight, and long ones; nine, the ninth
/// whole, torn or of no kind; the third at fault; kind 26 as a record.
fn named() -> Vec<Vec<u8>> {
    let record = encoded(&delete_topic("p"));
    let torn = &record[..record.len() - 1];
    let eight: Vec<u8> = (1..=8).flat_map(level).collect();
    let mut inputs = vec![
        Vec::new(),
        record.clone(),
        record.repeat(2),
        [level(1), record.clone(), level(1)].concat(),
        eight.clone(),
        record.repeat(MOST_RECORDS),
        encoded(&most_configs(&"v".repeat(255))).repeat(MOST_RECORDS),
        [encoded_offset(7), record.clone()].concat(),
    ];
    for ninth in [&record[..], torn, &[27, 0, 0], &[4]] {
        inputs.push([&eight, ninth].concat());
    }
    for third in faulty(&record) {
        inputs.push([&record[..], &record, &third].concat());
        inputs.push([&record[..], &record, &third, &record].concat());
    }
    inputs
}

/// A record of a few bytes for a number.
fn level(number: i16) -> Vec<u8> {
    encoded(&feature_level("a", number))
}

/// Torn, of no kind, without a field, over a limit, with a node twice among the
/// replicas, and a log offset below -1.
fn faulty(record: &[u8]) -> [Vec<u8>; 6] {
    [
        record[..record.len() - 1].to_vec(),
        field(27, b""),
        field(4, b""),
        encoded(&delete_topic(&"n".repeat(256))),
        encoded(&partition_record("p", 0, &[2, 2])),
        encoded_offset(-2),
    ]
}

/// One number: the history's bytes, at outputs of their length and about it, or
/// a refusal.
fn compare(
    tally: &mut Tally,
    input: &[u8],
    number: u64,
    expected: Result<Vec<u8>, u8>,
) -> Compared {
    let what = "a history by its number";
    let question = || format!("history {number} of {}", hex(input));
    let call = |out: &mut [u8]| history(input, number, out);
    match expected {
        Ok(bytes) => compare_record(tally, what, question, Some(bytes), call),
        Err(refusal) => compare_refused(tally, what, question, refusal, call),
    }
}
