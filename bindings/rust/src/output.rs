//! Outputs that have room for what a call writes.

use crate::calls::Answer;
use crate::refusal::{Refusal, Stopped};

/// What an element of a lent list holds before a call: no place and no count is so great.
const NOT_SET: u64 = u64::MAX;

/// What a call writes, first with so much room, and then with twice as much for as long as
/// it says that the output is too short.
pub(crate) fn written(
    room: usize,
    mut call: impl FnMut(&mut [u8]) -> Answer,
) -> Result<Vec<u8>, Refusal> {
    let mut out = vec![0; room];
    loop {
        match call(&mut out).map_err(Refusal::from_number) {
            Ok(length) => {
                out.truncate(length);
                return Ok(out);
            }
            Err(Refusal::TooShort) => out.resize(out.len().max(16) * 2, 0),
            Err(refusal) => return Err(refusal),
        }
    }
}

/// What a call on a run writes, with room for it. It puts how much into the list that it
/// is lent, or the place of the record that it refuses.
pub(crate) fn written_of_run(
    room: usize,
    call: impl FnOnce(&mut [u8], &mut [u64]) -> Answer,
) -> Result<(Vec<u8>, u64), Stopped> {
    let (mut out, mut values) = (vec![0; room], [NOT_SET; 2]);
    let answer = call(&mut out, &mut values);
    let [first, second] = values;
    stopped(answer, first)?;
    out.truncate(usize::try_from(first).unwrap_or(usize::MAX));
    Ok((out, second))
}

/// The answer of a call on a run, which may have put a place into a list.
pub(crate) fn of_run(call: impl FnOnce(&mut [u64]) -> Answer) -> Result<(), Stopped> {
    let mut place = [NOT_SET];
    let answer = call(&mut place);
    stopped(answer, place[0])
}

fn stopped(answer: Answer, place: u64) -> Result<(), Stopped> {
    match answer.map_err(Refusal::from_number) {
        Ok(_) => Ok(()),
        Err(refusal) => Err(Stopped {
            refusal,
            place: usize::try_from(place).ok().filter(|_| place != NOT_SET),
        }),
    }
}
