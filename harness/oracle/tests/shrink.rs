//! The shrinker, on faults that are known: a drawn history comes down to the
//! records that show one.

use std::collections::BTreeSet;

use krabka_metadata::MetadataRecord;
use oracle::facts::build::{delete_topic, nodes, partition_record, topic};
use oracle::generate::{Generator, Knobs};
use oracle::held::is_held;
use oracle::shrink::{
    Shrinker, least, least_bytes, least_input, least_records, least_run, pieces, simpler,
};
use wire::{Random, decode, encoded, encoded_offset, read};

type Compared = Result<(), String>;

fn drawn(seed: u64, count: usize) -> Vec<Vec<u8>> {
    let mut generator = Generator::new(seed, Knobs::default());
    generator.history(count).iter().map(encoded).collect()
}

/// A library with a fault: it forgets a topic once it was deleted. The first
/// difference names its place.
fn forgetful(name: &str, history: &[Vec<u8>]) -> Compared {
    let mut stored = false;
    for (place, input) in history.iter().enumerate() {
        match decode(input) {
            Ok((MetadataRecord::V1Topic(topic), _)) if topic.name == name => stored = true,
            Ok((MetadataRecord::V1DeleteTopic(delete), _)) if delete.name == name && stored => {
                return Err(format!("{name:?} is gone at {place}"));
            }
            _ => {}
        }
    }
    Ok(())
}

#[test]
fn a_history_comes_down_to_the_two_records_that_show_a_fault() {
    for seed in 1..20 {
        let mut history = drawn(seed, 60);
        let mut random = Random::new(seed);
        let first = random.below(40);
        history.insert(first, encoded(&topic("a", 7, 3, 2)));
        let behind = first + 1 + random.below(20);
        history.insert(behind, encoded(&delete_topic("a")));
        let difference = forgetful("a", &history).expect_err("the fault");
        let (least, difference) =
            least_records(difference, &history, |history| forgetful("a", history));
        let expected = [topic("a", 0, 0, 0), delete_topic("a")];
        assert_eq!(
            least,
            expected.map(|record| encoded(&record)),
            "seed {seed}"
        );
        assert_eq!(difference, "\"a\" is gone at 1");
    }
}

#[test]
fn a_record_keeps_what_shows_a_fault() {
    let partition = |input: &[u8]| match decode(input) {
        Ok((MetadataRecord::V1Partition(partition), _)) => Some(partition),
        _ => None,
    };
    let compare = |history: &[Vec<u8>]| {
        let mut partitions = history.iter().filter_map(|input| partition(input));
        match partitions.any(|partition| partition.replicas.len() > 2) {
            true => Err("three replicas or more".to_owned()),
            false => Ok(()),
        }
    };
    let long = "a long name".repeat(9);
    let history = [encoded(&partition_record(&long, 7, &[9, 800, 1 << 40, 5]))];
    let (least, _) = least_records(String::new(), &history, compare);
    let found = least.first().and_then(|input| partition(input));
    let mut found = found.expect("a partition");
    found.replicas.sort_unstable();
    assert_eq!((least.len(), found.replicas), (1, nodes(&[0, 1, 2])));
    assert_eq!((found.topic.as_str(), found.partition), ("", 0));
    assert!(found.isr.is_empty() && found.directories.is_empty());
}

#[test]
fn lists_come_down_to_what_fails() {
    let items: Vec<u32> = (0..100).collect();
    for needed in [
        vec![],
        vec![0],
        vec![99],
        vec![3, 50, 51, 97],
        (0..100).collect(),
    ] {
        let fails = |some: &[u32]| needed.iter().all(|item| some.contains(item));
        let fewer = Shrinker::new(1_000_000).fewer(&items, fails);
        assert_eq!(fewer, needed);
    }
    assert_eq!(Shrinker::new(100).fewer(&[], |_: &[u8]| true), []);
}

/// Where items fail by their number alone, none of those left can go.
#[test]
fn no_single_item_can_go() {
    for count in 0..=40 {
        let fails = |some: &[u8]| some.len() >= count;
        let fewer = Shrinker::new(100_000).fewer(&[7; 40], fails);
        assert_eq!(fewer.len(), count);
    }
}

#[test]
fn a_search_ends_and_finds_the_same_again() {
    let items: Vec<u64> = (0..1_000).collect();
    for steps in [0, 1, 500, 5_000, 50_000] {
        let search = || {
            let mut looked_at = 0;
            let mut fails = |some: &[u64]| {
                looked_at += some.len() + 1;
                some.iter().sum::<u64>() > 5_000
            };
            let mut shrinker = Shrinker::new(steps);
            let fewer = shrinker.fewer(&items, &mut fails);
            let halves = |item: &u64| (*item > 0).then(|| item / 2).into_iter().collect();
            (shrinker.simpler(&fewer, halves, &mut fails), looked_at)
        };
        let (found, looked_at) = search();
        assert!(looked_at <= steps);
        assert!(found.iter().sum::<u64>() > 5_000);
        assert_eq!(search(), (found, looked_at));
    }
}

#[test]
fn what_nothing_less_shows_stays_with_its_difference() {
    let unmoved = |_: &u8| Vec::new();
    let found = least(100, "once".to_owned(), &[1, 2, 3], unmoved, |_| Ok(()));
    assert_eq!(found, (vec![1, 2, 3], "once".to_owned()));
}

#[test]
fn bytes_come_down_too() {
    let bytes = Random::new(3).bytes(5_000);
    let bytes = [&bytes[..], &[0xC3, 9], &bytes].concat();
    let compare = |bytes: &[u8]| match bytes.iter().position(|byte| *byte >= 0xC3) {
        Some(place) if place + 1 < bytes.len() => Err(format!("at {place}")),
        _ => Ok(()),
    };
    let difference = compare(&bytes).expect_err("such a byte");
    let least = least_bytes(difference, &bytes, compare);
    assert_eq!(least, (vec![0xC3, 0], "at 0".to_owned()));
}

/// A run comes down by its records, and what is torn at its end by its bytes.
#[test]
fn runs_come_down_by_their_pieces() {
    let torn = &encoded(&topic("torn", 1, 1, 1))[..9];
    let history = drawn(5, 30).concat();
    let run = [&encoded_offset(5)[..], &history, torn].concat();
    assert_eq!(pieces(&run).concat(), run);
    let compare = |run: &[u8]| {
        let pieces = pieces(run);
        let torn = pieces.last().is_some_and(|last| read(last).is_err());
        match torn && read(run).is_ok() {
            true => Err(format!("{} pieces", pieces.len())),
            false => Ok(()),
        }
    };
    let (least, difference) = least_run("a torn end".to_owned(), &run, compare);
    assert_eq!(difference, "2 pieces");
    assert_eq!(pieces(&least)[1].len(), 1);
}

/// A record comes down by its fields, with the lengths that count them; what is
/// left goes down by its bytes.
#[test]
fn inputs_come_down_as_records_and_as_bytes() {
    let record = encoded(&delete_topic(&"n".repeat(200)));
    let compare = |input: &[u8]| match read(input) {
        Ok(used) if used > 80 => Err(format!("{used} bytes")),
        _ => Ok(()),
    };
    let (least, difference) = least_input(String::new(), &record, compare);
    assert_eq!(difference, "81 bytes");
    assert_eq!(least, encoded(&delete_topic(&"\0".repeat(75))));
}

/// Runs that are not held against the reference are not asked about.
#[test]
fn runs_stay_held() {
    let run = drawn(8, 200).concat();
    assert!(is_held(&run));
    let compare = |run: &[u8]| match is_held(run) {
        true => Err("held".to_owned()),
        false => panic!("a run that is not held"),
    };
    let (least, _) = least_run("held".to_owned(), &run, compare);
    assert!(least.is_empty());
}

/// Each is a record, another one, and not longer; and of each kind the way from a
/// record to simpler ones comes to an end.
#[test]
fn simpler_records_are_records() {
    let mut kinds = BTreeSet::new();
    for record in drawn(11, 300) {
        for other in simpler(&record) {
            assert_eq!(read(&other), Ok(other.len()), "{other:x?}");
            assert!(other != record && other.len() <= record.len());
        }
        if kinds.insert(record[0]) {
            let least = simplest(record);
            assert!(least.len() < 120, "{least:x?}");
        }
    }
    assert_eq!(kinds.len(), 25);
}

fn simplest(record: Vec<u8>) -> Vec<u8> {
    match simpler(&record).into_iter().next() {
        Some(other) => simplest(other),
        None => record,
    }
}

#[test]
fn what_is_no_record_gets_shorter() {
    assert_eq!(simpler(&[]), Vec::<Vec<u8>>::new());
    assert_eq!(simpler(&[1]), [vec![]]);
    assert_eq!(simpler(&[1, 0, 9, 1]), [vec![], vec![1, 0], vec![1, 0, 9]]);
}
