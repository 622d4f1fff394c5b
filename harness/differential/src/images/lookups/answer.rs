//! One question to a lookup, with outputs of several lengths.

use std::collections::BTreeSet;

use wire::TOO_SHORT;

use super::super::{Compared, Tally};

type Answer = Result<usize, u8>;

/// A stored entry is returned as its record, or 19 where the output is too
/// short; nothing is written where there is none.
pub fn compare_record(
    tally: &mut Tally,
    what: &'static str,
    question: impl Fn() -> String,
    record: Option<Vec<u8>>,
    call: impl Fn(&mut [u8]) -> Answer,
) -> Compared {
    let length = record.as_ref().map_or(0, Vec::len);
    let rooms = [0, length.saturating_sub(1), length, length + 1, length + 40];
    for room in BTreeSet::from(rooms) {
        let before = dirty(room);
        let (expected, end) = emitted(record.as_deref(), &before);
        tally.count(what, said(expected));
        compare_once(&question, &call, before, expected, end)?;
    }
    Ok(())
}

/// Counts what is found apart from what is not.
fn said(answer: Answer) -> String {
    match answer {
        Ok(0) => "0, absent".to_owned(),
        Ok(_) => "0, found".to_owned(),
        Err(number) => number.to_string(),
    }
}

/// The answer and the output's end.
fn emitted(record: Option<&[u8]>, before: &[u8]) -> (Answer, Vec<u8>) {
    let record = record.unwrap_or(&[]);
    let mut end = before.to_vec();
    match end.get_mut(..record.len()) {
        Some(place) => place.copy_from_slice(record),
        None => return (Err(TOO_SHORT), end),
    }
    (Ok(record.len()), end)
}

/// A refusal leaves the output as it was.
pub fn compare_refused(
    tally: &mut Tally,
    what: &'static str,
    question: impl Fn() -> String,
    number: u8,
    call: impl Fn(&mut [u8]) -> Answer,
) -> Compared {
    for room in [0, 600] {
        let before = dirty(room);
        tally.count(what, number);
        compare_once(&question, &call, before.clone(), Err(number), before)?;
    }
    Ok(())
}

fn compare_once(
    question: impl Fn() -> String,
    call: impl Fn(&mut [u8]) -> Answer,
    before: Vec<u8>,
    expected: Answer,
    end: Vec<u8>,
) -> Compared {
    let room = before.len();
    let mut out = before;
    let answer = call(&mut out);
    if answer == expected && out == end {
        return Ok(());
    }
    let (question, outputs) = (question(), outputs(&out, &end));
    Err(format!(
        "{question} into {room} bytes: {answer:?}, expected is {expected:?}; {outputs}"
    ))
}

/// Where two outputs differ first.
fn outputs(out: &[u8], end: &[u8]) -> String {
    match (0..end.len()).find(|at| out[*at] != end[*at]) {
        None => "the output is as expected".to_owned(),
        Some(at) => format!(
            "byte {at} of the output is {:#04x}, expected is {:#04x}",
            out[at], end[at]
        ),
    }
}

/// A number that there is goes into the first place, and the answer says how
/// many there are; the other places, and all of them where there is none or it
/// is refused, stay.
pub fn compare_value(
    tally: &mut Tally,
    what: &'static str,
    expected: Result<Option<i64>, u8>,
    call: impl Fn(&mut [u64]) -> Answer,
) -> Compared {
    let count = expected.map(|value| usize::from(value.is_some()));
    for room in [1, 3] {
        let mut end = vec![0xDEAD_BEEF_0BAD_CAFE; room];
        let mut values = end.clone();
        if let Ok(Some(value)) = expected {
            end[0] = value.cast_unsigned();
        }
        let answer = call(&mut values);
        tally.count(what, count.map_or_else(|number| number, |_| 0));
        if answer != count || values != end {
            return Err(format!(
                "{what}: {answer:?} and {values:x?}, expected is {count:?} and {end:x?}"
            ));
        }
    }
    Ok(())
}

/// Bytes that no record repeats for long.
fn dirty(room: usize) -> Vec<u8> {
    (0..room).map(|place| (place * 167 + 13) as u8).collect()
}
