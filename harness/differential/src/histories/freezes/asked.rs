//! A list of names on an image.

use krabka_metadata::{MetadataImage, MetadataRecord, TopicFreezeRecord};
use oracle::freeze_list::{MOST_NAMES, index, names, read, stored};
use oracle::verdict::NO_IMAGE;
use wire::{Random, encoded, hex};

use crate::images::{Compared, Tally, shown};
use crate::lent::compare_lent;
use crate::{freeze, freezes};

/// No freeze's record is longer.
const MOST_RECORD: usize = 1_700;

/// An image, and what the reference holds there.
pub struct Asked<'a> {
    buffer: &'a [u8],
    image: &'a MetadataImage,
    freezes: Vec<&'a TopicFreezeRecord>,
}

/// What is expected of a list where the output has room for it: the indexes,
/// and how many freezes are read; or the refusal.
type Expected = Result<(Vec<u16>, u64), u8>;

impl<'a> Asked<'a> {
    /// The buffer holds what the reference's image does.
    pub fn new(buffer: &'a [u8], image: &'a MetadataImage) -> Self {
        Self {
            buffer,
            image,
            freezes: stored(image),
        }
    }

    /// One list into outputs of several lengths, and beside it the lookup of
    /// each of its names.
    pub fn compare(&self, tally: &mut Tally, random: &mut Random, list: &[u8]) -> Compared {
        let expected = self.expected(list);
        compare_calls(tally, random, self.buffer, list, &expected)?;
        let Ok((indexes, read)) = &expected else {
            return Ok(());
        };
        tally.count("freezes read", self.share(*read));
        let names = names(list).expect("a list that is taken");
        let mut asked = None;
        for (name, index) in names.into_iter().zip(indexes) {
            if asked.replace(name) != Some(name) {
                self.compare_single(tally, name, *index)?;
            }
        }
        Ok(())
    }

    fn expected(&self, list: &[u8]) -> Expected {
        let names = names(list)?;
        let index = |name: &&str| index(self.image, &self.freezes, name);
        let indexes = names.iter().map(index).collect();
        Ok((indexes, read(&self.freezes, &names) as u64))
    }

    /// How much of what is stored so many freezes are.
    fn share(&self, read: u64) -> &'static str {
        match (read, self.freezes.len() as u64) {
            (_, 0) => "none are stored",
            (0, _) => "none",
            (read, stored) if read < stored => "some",
            _ => "all",
        }
    }

    /// The lookup of a name gives the record that stands at the index.
    fn compare_single(&self, tally: &mut Tally, name: &str, index: u16) -> Compared {
        let record = self.freezes.get(usize::from(index)).copied().cloned();
        tally.count("names beside the lookup", record.is_some());
        let expected = record.map_or_else(Vec::new, |freeze| {
            encoded(&MetadataRecord::V1TopicFreeze(freeze))
        });
        let mut out = [0; MOST_RECORD];
        let answer = freeze(self.buffer, name.as_bytes(), &mut out);
        match answer == Ok(expected.len()) && out.starts_with(&expected) {
            true => Ok(()),
            false => Err(format!(
                "{name:?} has the index {index}, its lookup says {answer:?}"
            )),
        }
    }
}

/// Lists on a buffer that is no image: 1, whatever they are.
pub fn compare_no_image(
    tally: &mut Tally,
    random: &mut Random,
    buffer: &[u8],
    lists: &[Vec<u8>],
) -> Compared {
    lists
        .iter()
        .try_for_each(|list| compare_calls(tally, random, buffer, list, &Err(NO_IMAGE)))
}

/// One list into outputs of several lengths.
fn compare_calls(
    tally: &mut Tally,
    random: &mut Random,
    buffer: &[u8],
    list: &[u8],
    expected: &Expected,
) -> Compared {
    let expected = expected.as_ref().map_err(|number| *number);
    let expected = expected.map(|(indexes, read)| (bytes(indexes), *read));
    let call = |out: &mut [u8], read: &mut [u64]| freezes(buffer, list, out, read);
    compare_lent(tally, random, "lists", &expected, 2 * MOST_NAMES, call).map_err(|difference| {
        let (list, image) = (hex(list), shown(buffer));
        format!("{difference}\nof the list {list}\non {image}")
    })
}

fn bytes(indexes: &[u16]) -> Vec<u8> {
    let bytes = indexes.iter().map(|index| index.to_be_bytes());
    bytes.flatten().collect()
}
