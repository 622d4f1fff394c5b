//! Validate of generated records, good and damaged, against an image.

use krabka_metadata::{FeaturesEpochRecord, MetadataRecord};
use oracle::generate::{Generator, Knobs};
use oracle::verdict::{NO_IMAGE, judged};
use wire::{Random, encoded, read};

use super::subject::Subject;
use super::{Compared, Tally};
use crate::{apply, validate};

/// The records that are validated against each image.
const RECORDS: usize = 60;

const WHAT: &str = "validate";

/// Validate's number of each record; of a damaged one, Read's.
pub fn compare(tally: &mut Tally, subject: &Subject, image: &[u8], seed: u64) -> Compared {
    let knobs = Knobs {
        accepted: 30,
        old_names: true,
        ..Knobs::default()
    };
    let mut generator = Generator::new(seed, knobs);
    let mut random = Random::beside(seed);
    for _ in 0..RECORDS {
        let record = generator.record(&subject.image);
        let expected = judged(&subject.image, &record);
        let bytes = encoded(&record);
        // Later bytes are not looked at.
        let longer = [&bytes[..], &[7, 0, 1]].concat();
        expect(tally, image, &longer, expected, || format!("{record:?}"))?;
        let cut = &bytes[..random.below(bytes.len())];
        let number = read(cut).expect_err("a record that is cut");
        expect(tally, image, cut, number, || format!("{record:?} cut"))?;
    }
    Ok(())
}

/// Validate and Apply say 1, of a record that Read takes and of one that it
/// refuses, and Apply leaves the buffer.
pub fn compare_no_image(tally: &mut Tally, buffer: &[u8]) -> Compared {
    let what = "validate and apply to no image";
    let record = FeaturesEpochRecord { epoch: 7 };
    let epoch = encoded(&MetadataRecord::V1FeaturesEpoch(record));
    for input in [&epoch[..], &epoch[1..], &[]] {
        let mut after = buffer.to_vec();
        let numbers = (validate(buffer, input), apply(&mut after, 0, input));
        tally.count(what, numbers.0);
        tally.count(what, numbers.1);
        if numbers != (NO_IMAGE, NO_IMAGE) || after != buffer {
            return Err(format!("{what}: the numbers are {numbers:?}"));
        }
    }
    Ok(())
}

fn expect(
    tally: &mut Tally,
    image: &[u8],
    input: &[u8],
    expected: u8,
    question: impl Fn() -> String,
) -> Compared {
    let number = validate(image, input);
    tally.count(WHAT, number);
    match number == expected {
        true => Ok(()),
        false => Err(format!(
            "{}: the verdict is {number}, not {expected}",
            question()
        )),
    }
}
