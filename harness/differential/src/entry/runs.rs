//! The entry points on a run of records, which may put the place of a record into a lent
//! list.

use jeghatuf::calls;

/// What a place of a lent list holds before a call: no count and no place is so
/// great, and no log offset is so low.
const NOT_SET: u64 = i64::MIN as u64 + 77;

/// A refusal, with the place of the record that it is about, if it is about one.
pub type Refusal = (u8, Option<u64>);

/// Makes the buffer the image of some records.
pub fn restore(buffer: &mut [u8], input: &[u8]) -> Result<(), Refusal> {
    let mut place = [NOT_SET; 2];
    let answer = calls::restore(buffer, input, &mut place);
    match (answer, place) {
        (Ok(0), [NOT_SET, NOT_SET]) => Ok(()),
        (Err(number), [place, NOT_SET]) => Err((number, set(place))),
        other => panic!("jeghatuf_restore says {other:?}"),
    }
}

/// Writes the new form of a run of the old one. The bytes written.
pub fn with_offset(run: &[u8], offset: i64, out: &mut [u8]) -> Result<u64, Refusal> {
    let mut value = [NOT_SET; 2];
    let answer = calls::with_offset(run, offset, out, &mut value);
    match (answer, value) {
        (Ok(0), [written, NOT_SET]) => Ok(written),
        (Err(number), [place, NOT_SET]) => Err((number, set(place))),
        other => panic!("jeghatuf_with_offset says {other:?}"),
    }
}

/// Writes the old form of a run of the new one. The bytes written, and the log
/// offset.
pub fn without_offset(run: &[u8], out: &mut [u8]) -> Result<(u64, i64), Refusal> {
    let mut values = [NOT_SET; 3];
    let answer = calls::without_offset(run, out, &mut values);
    match (answer, values) {
        (Ok(0), [written, offset, NOT_SET]) => Ok((written, offset.cast_signed())),
        (Err(number), [place, NOT_SET, NOT_SET]) => Err((number, set(place))),
        other => panic!("jeghatuf_without_offset says {other:?}"),
    }
}

/// Writes the name's freeze. The bytes written.
pub fn log_freeze(run: &[u8], name: &[u8], out: &mut [u8]) -> Result<usize, Refusal> {
    let mut value = [NOT_SET; 2];
    let answer = calls::log_freeze(run, name, out, &mut value);
    match (answer, value) {
        (Ok(0), [written, NOT_SET]) => Ok(usize::try_from(written).expect("a length")),
        (Err(number), [place, NOT_SET]) => Err((number, set(place))),
        other => panic!("jeghatuf_log_freeze says {other:?}"),
    }
}

fn set(place: u64) -> Option<u64> {
    Some(place).filter(|place| *place != NOT_SET)
}
