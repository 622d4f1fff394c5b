//! The entry points as they are: slices in, a refusal's number or a value out, and
//! the caller's own output.
//!
//! [`Image`](crate::Image), [`Record`](crate::Record) and the functions beside them
//! are made of these calls. They are for callers that keep images and outputs in
//! buffers of their own, or that want the numbers. Each takes any bytes and promises
//! what `jeghatuf.h` says of its entry point, with the same refusals; signed numbers
//! go as such here. A number that a call puts into the first element of a list is lost
//! where the list has none.
//!
//! ```
//! use jeghatuf::calls;
//!
//! let mut image = [0; 4_096];
//! assert_eq!(calls::open(&mut image), Ok(0));
//! let level = [11, 0, 9, 1, 0, 1, b'a', 2, 0, 2, 0, 1];
//! assert_eq!(calls::read(&level), Ok(12));
//! assert_eq!(calls::apply(&mut image, 0, &level), Ok(0));
//! assert_eq!(calls::apply(&mut image, 0, &level), Err(21));
//! let mut out = [0; 26];
//! assert_eq!(calls::snapshot(&image, &mut out[..25]), Err(19));
//! ```

use crate::raw;

/// The value of an answer: the bytes used or written, or a count, and 0 where none is
/// named. Or a refusal's number.
pub type Answer = Result<usize, u8>;

/// A refusal's number stands in the upper half of a packed answer, the value in the
/// lower one. No number is above 255.
fn unpacked(answer: u64) -> Answer {
    match answer >> 32 {
        0 => Ok(answer as usize),
        number => Err(u8::try_from(number).unwrap_or(u8::MAX)),
    }
}

/// Reads the record at the start of the input. The bytes used.
pub fn read(input: &[u8]) -> Answer {
    // SAFETY: the pointer and the length are a slice's.
    unpacked(unsafe { raw::jeghatuf_read(input.as_ptr(), input.len()) })
}

/// Writes a record of a kind's number: the tags of its fields, the length of each, and
/// their values back to back. The bytes written.
pub fn write(kind: u8, tags: &[u8], lengths: &[u16], values: &[u8], out: &mut [u8]) -> Answer {
    // SAFETY: each pointer and length are a slice's, and `out` is borrowed alone.
    unpacked(unsafe {
        raw::jeghatuf_write(
            kind,
            tags.as_ptr(),
            tags.len(),
            lengths.as_ptr(),
            lengths.len(),
            values.as_ptr(),
            values.len(),
            out.as_mut_ptr(),
            out.len(),
        )
    })
}

/// Seeks a field of a tag from the place `at` on: 1 where there is one, its value's place
/// and length being put into the first two of `place`; else 0.
pub fn field(bytes: &[u8], at: usize, tag: u8, place: &mut [u64]) -> u64 {
    // SAFETY: each pointer and length are a slice's, and `place` is borrowed alone.
    unsafe {
        raw::jeghatuf_field(
            bytes.as_ptr(),
            bytes.len(),
            at,
            tag,
            place.as_mut_ptr(),
            place.len(),
        )
    }
}

/// Makes the buffer a fresh image.
pub fn open(buffer: &mut [u8]) -> Answer {
    // SAFETY: the pointer and the length are a slice's, which is borrowed alone.
    unpacked(unsafe { raw::jeghatuf_open(buffer.as_mut_ptr(), buffer.len()) })
}

/// The exact test: 1 for an image, else 0.
pub fn is_image(buffer: &[u8]) -> u64 {
    // SAFETY: the pointer and the length are a slice's.
    unsafe { raw::jeghatuf_is_image(buffer.as_ptr(), buffer.len()) }
}

/// Whether the record at the start of the input may be applied.
pub fn validate(image: &[u8], input: &[u8]) -> Answer {
    // SAFETY: each pointer and length are a slice's.
    unpacked(unsafe {
        raw::jeghatuf_validate(image.as_ptr(), image.len(), input.as_ptr(), input.len())
    })
}

/// Applies the record at the start of the input, at its log offset.
pub fn apply(image: &mut [u8], offset: i64, input: &[u8]) -> Answer {
    // SAFETY: each pointer and length are a slice's, and `image` is borrowed alone.
    unpacked(unsafe {
        raw::jeghatuf_apply(
            image.as_mut_ptr(),
            image.len(),
            offset.cast_unsigned(),
            input.as_ptr(),
            input.len(),
        )
    })
}

/// Writes the image's log offset and its records. The bytes written.
pub fn snapshot(image: &[u8], out: &mut [u8]) -> Answer {
    // SAFETY: each pointer and length are a slice's, and `out` is borrowed alone.
    unpacked(unsafe {
        raw::jeghatuf_snapshot(image.as_ptr(), image.len(), out.as_mut_ptr(), out.len())
    })
}

/// Makes the buffer the image of the records of the input, at the log offset that they
/// start with. Where a record is refused, `place[0]` gets the byte that it begins at,
/// and the buffer is the image of the records before it.
pub fn restore(buffer: &mut [u8], input: &[u8], place: &mut [u64]) -> Answer {
    // SAFETY: each pointer and length are a slice's; `buffer` and `place` are borrowed alone.
    unpacked(unsafe {
        raw::jeghatuf_restore(
            buffer.as_mut_ptr(),
            buffer.len(),
            input.as_ptr(),
            input.len(),
            place.as_mut_ptr(),
            place.len(),
        )
    })
}

/// Writes the new form of a run of the old one. `value[0]` gets the bytes written, or
/// the place of the record that is refused.
pub fn with_offset(run: &[u8], offset: i64, out: &mut [u8], value: &mut [u64]) -> Answer {
    // SAFETY: each pointer and length are a slice's; `out` and `value` are borrowed alone.
    unpacked(unsafe {
        raw::jeghatuf_with_offset(
            run.as_ptr(),
            run.len(),
            offset.cast_unsigned(),
            out.as_mut_ptr(),
            out.len(),
            value.as_mut_ptr(),
            value.len(),
        )
    })
}

/// Writes the old form of a run of the new one. `values[0]` gets the bytes written, and
/// `values[1]` the log offset's bits; or `values[0]` the place of the record that is
/// refused.
pub fn without_offset(run: &[u8], out: &mut [u8], values: &mut [u64]) -> Answer {
    // SAFETY: each pointer and length are a slice's; `out` and `values` are borrowed alone.
    unpacked(unsafe {
        raw::jeghatuf_without_offset(
            run.as_ptr(),
            run.len(),
            out.as_mut_ptr(),
            out.len(),
            values.as_mut_ptr(),
            values.len(),
        )
    })
}

/// Writes the records that take the image to a metadata level. The bytes written.
pub fn downgrade(image: &[u8], level: i16, out: &mut [u8]) -> Answer {
    // SAFETY: each pointer and length are a slice's, and `out` is borrowed alone.
    unpacked(unsafe {
        raw::jeghatuf_downgrade(
            image.as_ptr(),
            image.len(),
            level.cast_unsigned(),
            out.as_mut_ptr(),
            out.len(),
        )
    })
}

/// A lookup by a name alone: an image, the name, and the output.
type ByName = unsafe extern "C" fn(*const u8, usize, *const u8, usize, *mut u8, usize) -> u64;

fn by_name(lookup: ByName, image: &[u8], name: &[u8], out: &mut [u8]) -> Answer {
    // SAFETY: each pointer and length are a slice's, and `out` is borrowed alone.
    unpacked(unsafe {
        lookup(
            image.as_ptr(),
            image.len(),
            name.as_ptr(),
            name.len(),
            out.as_mut_ptr(),
            out.len(),
        )
    })
}

/// Writes the topic of a name, as its record. The bytes written, 0 where there is none.
pub fn topic(image: &[u8], name: &[u8], out: &mut [u8]) -> Answer {
    by_name(raw::jeghatuf_topic, image, name, out)
}

/// As [`topic`], for the topic that the id names.
pub fn topic_by_id(image: &[u8], id: &[u8; 16], out: &mut [u8]) -> Answer {
    // SAFETY: each pointer and length are a slice's, and `out` is borrowed alone.
    unpacked(unsafe {
        raw::jeghatuf_topic_by_id(image.as_ptr(), image.len(), id, out.as_mut_ptr(), out.len())
    })
}

/// As [`topic`], for a partition of the topic.
pub fn partition(image: &[u8], name: &[u8], number: i32, out: &mut [u8]) -> Answer {
    // SAFETY: each pointer and length are a slice's, and `out` is borrowed alone.
    unpacked(unsafe {
        raw::jeghatuf_partition(
            image.as_ptr(),
            image.len(),
            name.as_ptr(),
            name.len(),
            number.cast_unsigned(),
            out.as_mut_ptr(),
            out.len(),
        )
    })
}

/// As [`topic`], for a broker's registration.
pub fn broker(image: &[u8], node: u64, out: &mut [u8]) -> Answer {
    // SAFETY: each pointer and length are a slice's, and `out` is borrowed alone.
    unpacked(unsafe {
        raw::jeghatuf_broker(
            image.as_ptr(),
            image.len(),
            node,
            out.as_mut_ptr(),
            out.len(),
        )
    })
}

/// As [`topic`], for the freeze of a name.
pub fn freeze(image: &[u8], name: &[u8], out: &mut [u8]) -> Answer {
    by_name(raw::jeghatuf_freeze, image, name, out)
}

/// Writes the index of each name's freeze among the stored ones. The bytes written; how
/// many freezes were read goes into `read[0]`.
pub fn freezes(image: &[u8], list: &[u8], out: &mut [u8], read: &mut [u64]) -> Answer {
    // SAFETY: each pointer and length are a slice's; `out` and `read` are borrowed alone.
    unpacked(unsafe {
        raw::jeghatuf_freezes(
            image.as_ptr(),
            image.len(),
            list.as_ptr(),
            list.len(),
            out.as_mut_ptr(),
            out.len(),
            read.as_mut_ptr(),
            read.len(),
        )
    })
}

/// Writes the freeze of a name from a run of records. `value[0]` gets the bytes written,
/// or the place of the record that is refused.
pub fn log_freeze(run: &[u8], name: &[u8], out: &mut [u8], value: &mut [u64]) -> Answer {
    // SAFETY: each pointer and length are a slice's; `out` and `value` are borrowed alone.
    unpacked(unsafe {
        raw::jeghatuf_log_freeze(
            run.as_ptr(),
            run.len(),
            name.as_ptr(),
            name.len(),
            out.as_mut_ptr(),
            out.len(),
            value.as_mut_ptr(),
            value.len(),
        )
    })
}

/// Writes the records under visible names. The bytes written.
pub fn view_snapshot(image: &[u8], prefixes: &[u8], out: &mut [u8]) -> Answer {
    by_name(raw::jeghatuf_view_snapshot, image, prefixes, out)
}

/// A viewer's lookup by a name alone: an image, the prefixes, the name, and the output.
type Viewed = unsafe extern "C" fn(
    *const u8,
    usize,
    *const u8,
    usize,
    *const u8,
    usize,
    *mut u8,
    usize,
) -> u64;

fn viewed(lookup: Viewed, image: &[u8], prefixes: &[u8], name: &[u8], out: &mut [u8]) -> Answer {
    // SAFETY: each pointer and length are a slice's, and `out` is borrowed alone.
    unpacked(unsafe {
        lookup(
            image.as_ptr(),
            image.len(),
            prefixes.as_ptr(),
            prefixes.len(),
            name.as_ptr(),
            name.len(),
            out.as_mut_ptr(),
            out.len(),
        )
    })
}

/// As [`topic`], where the name is visible.
pub fn view_topic(image: &[u8], prefixes: &[u8], name: &[u8], out: &mut [u8]) -> Answer {
    viewed(raw::jeghatuf_view_topic, image, prefixes, name, out)
}

/// As [`partition`], where the topic's name is visible.
pub fn view_partition(
    image: &[u8],
    prefixes: &[u8],
    name: &[u8],
    number: i32,
    out: &mut [u8],
) -> Answer {
    // SAFETY: each pointer and length are a slice's, and `out` is borrowed alone.
    unpacked(unsafe {
        raw::jeghatuf_view_partition(
            image.as_ptr(),
            image.len(),
            prefixes.as_ptr(),
            prefixes.len(),
            name.as_ptr(),
            name.len(),
            number.cast_unsigned(),
            out.as_mut_ptr(),
            out.len(),
        )
    })
}

/// As [`freeze`], where the name is visible.
pub fn view_freeze(image: &[u8], prefixes: &[u8], name: &[u8], out: &mut [u8]) -> Answer {
    viewed(raw::jeghatuf_view_freeze, image, prefixes, name, out)
}

/// Holds two runs against each other: 1 where they part, 0 where they agree. The count
/// of records up to there goes into `value[0]`, and both buffers are the images after
/// it.
pub fn compare(
    first: &mut [u8],
    second: &mut [u8],
    one: &[u8],
    other: &[u8],
    value: &mut [u64],
) -> Answer {
    // SAFETY: each pointer and length are a slice's; both buffers and `value` are borrowed alone.
    unpacked(unsafe {
        raw::jeghatuf_compare(
            first.as_mut_ptr(),
            first.len(),
            second.as_mut_ptr(),
            second.len(),
            one.as_ptr(),
            one.len(),
            other.as_ptr(),
            other.len(),
            value.as_mut_ptr(),
            value.len(),
        )
    })
}

/// Writes the history under a number, of 1 to 8 records. The bytes written.
pub fn history(records: &[u8], number: u64, out: &mut [u8]) -> Answer {
    // SAFETY: each pointer and length are a slice's, and `out` is borrowed alone.
    unpacked(unsafe {
        raw::jeghatuf_history(
            records.as_ptr(),
            records.len(),
            number,
            out.as_mut_ptr(),
            out.len(),
        )
    })
}

/// Writes Kafka's record at the start of the input as one of ours. The bytes written;
/// how many bytes of the input were used goes into `used[0]`.
pub fn kafka_read(input: &[u8], out: &mut [u8], used: &mut [u64]) -> Answer {
    // SAFETY: each pointer and length are a slice's; `out` and `used` are borrowed alone.
    unpacked(unsafe {
        raw::jeghatuf_kafka_read(
            input.as_ptr(),
            input.len(),
            out.as_mut_ptr(),
            out.len(),
            used.as_mut_ptr(),
            used.len(),
        )
    })
}

/// Writes our record at the start of the input in Kafka's bytes. The bytes written.
pub fn kafka_write(input: &[u8], out: &mut [u8]) -> Answer {
    // SAFETY: each pointer and length are a slice's, and `out` is borrowed alone.
    unpacked(unsafe {
        raw::jeghatuf_kafka_write(input.as_ptr(), input.len(), out.as_mut_ptr(), out.len())
    })
}

/// Puts a node's rate of a kind into `value[0]`. How many rates there are, 0 or 1.
pub fn throttle(image: &[u8], node: u64, kind: u8, value: &mut [u64]) -> Answer {
    // SAFETY: each pointer and length are a slice's, and `value` is borrowed alone.
    unpacked(unsafe {
        raw::jeghatuf_throttle(
            image.as_ptr(),
            image.len(),
            node,
            kind,
            value.as_mut_ptr(),
            value.len(),
        )
    })
}

/// A lookup of a number that every image has: an image, and where it goes.
type OfImage = unsafe extern "C" fn(*const u8, usize, *mut u64, usize) -> u64;

fn of_image(lookup: OfImage, image: &[u8], value: &mut [u64]) -> Answer {
    // SAFETY: each pointer and length are a slice's, and `value` is borrowed alone.
    unpacked(unsafe { lookup(image.as_ptr(), image.len(), value.as_mut_ptr(), value.len()) })
}

/// Puts the bits of the features epoch into `value[0]`.
pub fn features_epoch(image: &[u8], value: &mut [u64]) -> Answer {
    of_image(raw::jeghatuf_features_epoch, image, value)
}

/// Puts the bits of the log offset into `value[0]`.
pub fn log_offset(image: &[u8], value: &mut [u64]) -> Answer {
    of_image(raw::jeghatuf_log_offset, image, value)
}

/// How many partitions have an ISR smaller than the number of their replicas that are
/// not being added.
pub fn short_count(image: &[u8]) -> Answer {
    // SAFETY: the pointer and the length are a slice's.
    unpacked(unsafe { raw::jeghatuf_short_count(image.as_ptr(), image.len()) })
}
