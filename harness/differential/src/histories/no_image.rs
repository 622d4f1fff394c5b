//! Validate and Apply on buffers that are no image: 1, and nothing changes,
//! whatever the input is.

use oracle::cases::cases;
use oracle::exact::is_image;
use oracle::facts::build::{delete_topic, feature_level, topic};
use oracle::shrink::{least_bytes, least_input};
use oracle::verdict::NO_IMAGE;
use wire::{Random, encoded, encoded_offset};

use super::course::Course;
use super::{expect, told};
use crate::images::{Compared, Tally, shown};
use crate::{apply, validate};

/// How often a byte of an image is changed.
const DRAWS: usize = 6;

/// The cases with known answers that are no images.
pub fn compare_no_image(tally: &mut Tally) -> Compared {
    for case in cases().iter().filter(|case| !case.is_image) {
        for input in inputs() {
            compare(tally, &case.bytes, &input)
                .map_err(|difference| format!("{:?}: {difference}", case.name))?;
        }
    }
    Ok(())
}

/// Records, and bytes that are none: they too get 1, which comes first.
fn inputs() -> [Vec<u8>; 6] {
    let bytes = |record| encoded(&record);
    [
        bytes(topic("p", 1, 0, 1)),
        bytes(delete_topic("p")),
        bytes(feature_level("a", 1)),
        Vec::new(),
        vec![27, 0, 0],
        encoded_offset(0),
    ]
}

/// The image that a history leaves, with a byte changed so that it is none.
pub fn compare_near(
    tally: &mut Tally,
    random: &mut Random,
    course: &Course,
    inputs: &[Vec<u8>],
) -> Compared {
    for _ in 0..DRAWS {
        if let Some(buffer) = near(random, &course.buffer) {
            compare(tally, &buffer, &inputs[random.below(inputs.len())])?;
        }
    }
    Ok(())
}

/// An image with a byte changed, where that makes it none.
pub fn near(random: &mut Random, image: &[u8]) -> Option<Vec<u8>> {
    let mut buffer = image.to_vec();
    let place = place(random, &buffer);
    buffer[place] ^= 1 << random.below(8);
    Some(buffer).filter(|buffer| !is_image(buffer))
}

/// Mostly in the used part: a byte changed after it is never an image.
fn place(random: &mut Random, image: &[u8]) -> usize {
    let used = u32::from_be_bytes(image[8..12].try_into().expect("four bytes"));
    match random.below(4) {
        0 => random.below(image.len()),
        _ => random.below(used as usize),
    }
}

fn compare(tally: &mut Tally, bytes: &[u8], input: &[u8]) -> Compared {
    compare_numbers(tally, bytes, input).map_err(|difference| least(difference, bytes, input))
}

/// The difference of less input to a lesser buffer.
fn least(difference: String, bytes: &[u8], input: &[u8]) -> String {
    let compare = |bytes: &[u8], input: &[u8]| match is_image(bytes) {
        true => Ok(()),
        false => compare_numbers(&mut Tally::default(), bytes, input),
    };
    let (input, difference) = least_input(difference, input, |input| compare(bytes, input));
    let (bytes, difference) = least_bytes(difference, bytes, |bytes| compare(bytes, &input));
    let (bytes, input) = (shown(&bytes), told(&input));
    format!("{difference}\nto {bytes}\nthat is no image, of this:\n{input}")
}

fn compare_numbers(tally: &mut Tally, bytes: &[u8], input: &[u8]) -> Compared {
    let mut buffer = bytes.to_vec();
    let number = validate(&buffer, input);
    expect(tally, "Validate, no image", number, NO_IMAGE)?;
    for offset in [i64::MIN, 0, i64::MAX] {
        let number = apply(&mut buffer, offset, input);
        expect(tally, "Apply, no image", number, NO_IMAGE)?;
    }
    match buffer == bytes {
        true => Ok(()),
        false => Err(format!("Apply leaves {}", shown(&buffer))),
    }
}
