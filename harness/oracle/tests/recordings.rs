//! Two recordings held against each other: the rule on known pairs, and the
//! stored lines of the program `test_recordings`.

mod vectors;

use oracle::facts::build::{
    broker_config, delete_topic, feature_level, offset_advance, producer_ids, topic,
};
use oracle::image::{FIXED_ROOM, MOST_CAPACITY};
use oracle::recordings::{Course, Standing, parting};
use oracle::verdict::{NO_IMAGE, NO_OFFSET, NO_ROOM};
use vectors::stored_lines;
use wire::{PAST_THE_END, UNKNOWN_KIND, encoded, encoded_all, encoded_offset, hex};

use Standing::{Ended, GoesOn, Refused};

/// Whether two runs part, the count, and how they stand there.
fn compared(capacity: usize, one: &[u8], other: &[u8]) -> (bool, usize, [Standing; 2]) {
    let parting = parting(&Course::of(one), &Course::of(other), capacity);
    (parting.parts(), parting.count, parting.standings)
}

fn level(name: &str) -> Vec<u8> {
    encoded(&feature_level(name, 1))
}

#[test]
fn empty_runs_agree_at_once() {
    let (none, some) = (Vec::new(), level("a"));
    let at = |one, other| compared(FIXED_ROOM + 12, one, other);
    assert_eq!(at(&none, &none), (false, 0, [Ended, Ended]));
    assert_eq!(at(&none, &some), (true, 0, [Ended, GoesOn]));
    assert_eq!(at(&some, &none), (true, 0, [GoesOn, Ended]));
    assert_eq!(at(&some, &some), (false, 1, [Ended, Ended]));
}

/// Snapshots are looked at before it is asked how the runs stand.
#[test]
fn the_first_other_snapshot_counts() {
    let one = [level("a"), level("b")].concat();
    let other = [level("a"), level("c"), level("d")].concat();
    let (parts, count, _) = compared(MOST_CAPACITY, &one, &other);
    assert_eq!((parts, count), (true, 2));
    let back = [level("b"), level("a")].concat();
    let (parts, count, _) = compared(MOST_CAPACITY, &one, &back);
    assert_eq!((parts, count), (true, 1));
}

#[test]
fn another_text_of_the_same_effect_is_no_parting() {
    let one = [encoded(&delete_topic("p")), level("a")].concat();
    let other = [encoded(&producer_ids(1, 5, 0)), level("a")].concat();
    let answer = compared(FIXED_ROOM + 12, &one, &other);
    assert_eq!(answer, (false, 2, [Ended, Ended]));
}

/// An empty group stands in no snapshot, but takes room.
#[test]
fn an_empty_group_parts_where_room_runs_out() {
    let one = [encoded(&producer_ids(1, 5, 0)), level("a")].concat();
    let other = [encoded(&broker_config(1, "x", None)), level("a")].concat();
    let parts = compared(FIXED_ROOM + 18, &one, &other);
    assert_eq!(parts, (true, 1, [GoesOn, Refused(NO_ROOM)]));
    let agrees = compared(FIXED_ROOM + 18 + 12, &one, &other);
    assert_eq!(agrees, (false, 2, [Ended, Ended]));
}

#[test]
fn refusals_are_alike_by_their_numbers() {
    let behind = |bytes: &[u8]| [&level("a"), bytes].concat();
    let at = |one: &[u8], other: &[u8]| {
        let (parts, count, standings) = compared(FIXED_ROOM + 12, &behind(one), &behind(other));
        assert_eq!(count, 1);
        (parts, standings)
    };
    let (torn, shorter) = (&level("b")[..5], &level("b")[..2]);
    let both = [Refused(PAST_THE_END); 2];
    assert_eq!(at(torn, torn), (false, both));
    assert_eq!(at(torn, shorter), (false, both));
    let full = at(&level("b"), &encoded(&topic("p", 1, 0, 3)));
    assert_eq!(full, (false, [Refused(NO_ROOM); 2]));
    let apart = at(torn, &level("b"));
    assert_eq!(apart, (true, [Refused(PAST_THE_END), Refused(NO_ROOM)]));
    assert_eq!(at(torn, b""), (true, [Refused(PAST_THE_END), Ended]));
    let dated = at(&encoded_offset(5), &[27, 0, 0]);
    assert_eq!(dated, (false, [Refused(UNKNOWN_KIND); 2]));
}

#[test]
fn an_offset_that_leaves_i64_ends_a_run() {
    let advance = |count| offset_advance("p", 0, count);
    let one = encoded_all(&[advance(i64::MAX), advance(1), advance(0)]);
    let other = encoded_all(&[advance(i64::MAX), advance(0), advance(0)]);
    let (parts, count, standings) = compared(MOST_CAPACITY, &one, &other);
    assert_eq!((parts, count), (true, 1));
    assert_eq!(standings, [Refused(NO_OFFSET), GoesOn]);
}

#[test]
fn the_stored_lines_are_the_references() {
    for (line, expected) in stored_lines("test_recordings") {
        assert_eq!(answer(&line), expected, "{}", hex(&line));
    }
}

/// What the program says to a line: both capacities, how many bytes the first run
/// has, and the two runs.
fn answer(line: &[u8]) -> String {
    let (first, rest) = line.split_first_chunk().expect("a capacity");
    let (second, rest) = rest.split_first_chunk().expect("a capacity");
    let (length, rest) = rest.split_first_chunk().expect("a length");
    let [first, second] = [*first, *second].map(|number| u32::from_be_bytes(number) as usize);
    let (one, other) = rest.split_at(usize::from(u16::from_be_bytes(*length)));
    if first != second || !(FIXED_ROOM..=MOST_CAPACITY).contains(&first) {
        return NO_IMAGE.to_string();
    }
    let courses = [one, other].map(Course::of);
    let parting = parting(&courses[0], &courses[1], first);
    let (parts, count) = (u8::from(parting.parts()), parting.count);
    let images = courses.map(|course| hex(&course.used(count)));
    format!("0 {parts} {count} {}", images.join(" "))
}
