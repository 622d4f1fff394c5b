//! Validate of a topic by its name: on a fresh image, and on one that stores
//! the topic already, with as many partitions as the record says and with
//! fewer. Apply takes every name that Read takes.

use krabka_metadata::MetadataImage;
use oracle::verdict::{ACCEPTED, UNLAWFUL_NAME, judged};
use uuid::Uuid;
use wire::{OVER_A_LIMIT, WRONG_FIELD, decode, field, hex};

use super::{Compared, Tally};
use crate::{apply, open, validate};

const CAPACITY: usize = 1_024;
/// The lengths of names at the limits.
const LENGTHS: [usize; 10] = [1, 248, 249, 250, 251, 252, 253, 254, 255, 256];

/// Compares on names with known answers, then on every name of up to two
/// bytes, and on every byte at the first, a middle and the last place of names
/// of the lengths at the limits.
pub fn compare_names(tally: &mut Tally) -> Compared {
    for (name, number) in known() {
        expect("a known name", &record(&name, 0), number, |input| {
            validate(&Pair::fresh().buffer, input)
        })?;
        compare(tally, &name)?;
    }
    for first in 0..=u8::MAX {
        compare(tally, &[first])?;
        (0..=u8::MAX).try_for_each(|second| compare(tally, &[first, second]))?;
    }
    for length in LENGTHS {
        for place in [0, length / 2, length - 1] {
            for byte in 0..=u8::MAX {
                let mut name = vec![b'n'; length];
                name[place] = byte;
                compare(tally, &name)?;
            }
        }
    }
    Ok(())
}

/// Names with what Validate says of them on a fresh image.
fn known() -> Vec<(Vec<u8>, u8)> {
    let short: [(&[u8], u8); 10] = [
        (b"", UNLAWFUL_NAME),
        (b".", UNLAWFUL_NAME),
        (b"..", UNLAWFUL_NAME),
        (b"...", ACCEPTED),
        (b"Smith/2", UNLAWFUL_NAME),
        (b"Smith-2", ACCEPTED),
        (b"A.b_c-9", ACCEPTED),
        ("é".as_bytes(), UNLAWFUL_NAME),
        (b"a\xff", WRONG_FIELD),
        (b"/\xff", WRONG_FIELD),
    ];
    let long = LENGTHS.map(|length| {
        let number = match length {
            ..=249 => ACCEPTED,
            250..=255 => UNLAWFUL_NAME,
            _ => OVER_A_LIMIT,
        };
        (vec![b'n'; length], number)
    });
    let short = short.map(|(name, number)| (name.to_vec(), number));
    short.into_iter().chain(long).collect()
}

fn compare(tally: &mut Tally, name: &[u8]) -> Compared {
    let (input, more) = (record(name, 0), record(name, 1));
    let mut pair = Pair::fresh();
    pair.validate(tally, "names, not stored", &input)?;
    if decode(&input).is_err() {
        return Ok(());
    }
    pair.apply(tally, &input)?;
    pair.validate(tally, "names, stored", &input)?;
    pair.validate(tally, "names, more partitions", &more)
}

/// The reference's image, and the buffer that holds it.
struct Pair {
    image: MetadataImage,
    buffer: Vec<u8>,
}

impl Pair {
    fn fresh() -> Self {
        let mut buffer = vec![0; CAPACITY];
        open(&mut buffer).expect("a capacity that Open takes");
        Self {
            image: MetadataImage::new(Uuid::nil()),
            buffer,
        }
    }

    /// Read's number, else the rule's and the reference's.
    fn validate(&self, tally: &mut Tally, what: &'static str, input: &[u8]) -> Compared {
        let expected = decode(input).map(|(record, _)| judged(&self.image, &record));
        let expected = expected.unwrap_or_else(|number| number);
        tally.count(what, expected);
        expect(what, input, expected, |input| validate(&self.buffer, input))
    }

    fn apply(&mut self, tally: &mut Tally, input: &[u8]) -> Compared {
        let (record, _) = decode(input).expect("a record that Read takes");
        self.image.apply(&record);
        tally.count("names, applied", ACCEPTED);
        expect("Apply", input, ACCEPTED, |input| {
            apply(&mut self.buffer, 0, input)
        })
    }
}

fn expect(what: &str, input: &[u8], expected: u8, answer: impl FnOnce(&[u8]) -> u8) -> Compared {
    let number = answer(input);
    match number == expected {
        true => Ok(()),
        false => Err(format!(
            "{what}: the number is {number}, not {expected}, of {}",
            hex(input)
        )),
    }
}

/// A topic's bytes, whatever its name is.
fn record(name: &[u8], partitions: i32) -> Vec<u8> {
    let fields = [
        field(1, name),
        field(2, &[1; 16]),
        field(3, &partitions.to_be_bytes()),
        field(4, &1_i16.to_be_bytes()),
    ];
    field(1, &fields.concat())
}
