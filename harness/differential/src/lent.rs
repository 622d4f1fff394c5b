//! A call that writes bytes into an output and a number into the first place of a
//! lent list.

use wire::{Random, TOO_SHORT};

use crate::histories::rooms;
use crate::images::{Compared, Tally};

/// What a place of the list holds before a call: no call gives this number.
const NOT_SET: u64 = u64::MAX - 77;

/// What is expected where the output has room for it: the bytes, and the number
/// for the list; or the refusal.
pub type Expected = Result<(Vec<u8>, u64), u8>;

/// What a call says, and how it leaves the output and the list.
type Ended = (Result<usize, u8>, Vec<u8>, Vec<u64>);

/// Into outputs that are empty, one byte too short, just so and longer, and into
/// lists of none, one and two places. A refused call has outputs of about so many
/// bytes as `room` says.
pub fn compare_lent(
    tally: &mut Tally,
    random: &mut Random,
    what: &'static str,
    expected: &Expected,
    room: usize,
    call: impl Fn(&mut [u8], &mut [u64]) -> Result<usize, u8>,
) -> Compared {
    let wanted = expected.as_ref().map_or(room, |(bytes, _)| bytes.len());
    let [short, just, longer] = rooms(random, wanted);
    for (room, places) in [(0, 1), (short, 1), (just, 0), (just, 1), (longer, 2)] {
        let (mut out, mut list) = (random.bytes(room), vec![NOT_SET; places]);
        let expected = ended(expected, &out, &list);
        let answer = call(&mut out, &mut list);
        tally.count(what, expected.0.map_or_else(|number| number, |_| 0));
        let end = (answer, out, list);
        if end != expected {
            return Err(format!("{end:x?}\nexpected is {expected:x?}"));
        }
    }
    Ok(())
}

/// A refusal leaves both as they were, and is 19 where the bytes are more than
/// the output takes.
fn ended(expected: &Expected, out: &[u8], list: &[u64]) -> Ended {
    let (mut out, mut list) = (out.to_vec(), list.to_vec());
    let (bytes, number) = match expected {
        Ok(expected) => expected,
        Err(number) => return (Err(*number), out, list),
    };
    match out.get_mut(..bytes.len()) {
        Some(place) => place.copy_from_slice(bytes),
        None => return (Err(TOO_SHORT), out, list),
    }
    if let Some(place) = list.first_mut() {
        *place = *number;
    }
    (Ok(bytes.len()), out, list)
}
