//! Buffers that are images or nearly so, each with the right answer: issue 5's
//! bad inputs, and beside them good ones that differ little.

mod groups;
mod header;
mod order;
mod samples;
mod stored;
mod topics;
mod weight;

use krabka_metadata::{MetadataImage, MetadataRecord};
use uuid::Uuid;

use crate::image::layout;
use crate::layout::{Layout, former};
use crate::observe::{Witness, observe};

/// Room for every case that is not about its capacity.
const ROOMY: usize = 4_096;

pub struct Case {
    pub name: String,
    pub bytes: Vec<u8>,
    pub is_image: bool,
}

pub fn cases() -> Vec<Case> {
    let mut cases = Cases::default();
    header::add(&mut cases);
    stored::add(&mut cases);
    order::add(&mut cases);
    groups::add(&mut cases);
    topics::add(&mut cases);
    weight::add(&mut cases);
    cases.former();
    cases.list
}

#[derive(Default)]
struct Cases {
    list: Vec<Case>,
}

impl Cases {
    fn image(&mut self, name: impl Into<String>, bytes: Vec<u8>) {
        self.push(name, bytes, true);
    }

    fn no_image(&mut self, name: impl Into<String>, bytes: Vec<u8>) {
        self.push(name, bytes, false);
    }

    /// Each of the images, in the layout from before the log offset.
    fn former(&mut self) {
        let images = self.list.iter().filter(|case| case.is_image);
        let former: Vec<Case> = images
            .map(|case| Case {
                name: format!("{}, of the former version", case.name),
                bytes: former(&case.bytes),
                is_image: false,
            })
            .collect();
        self.list.extend(former);
    }

    fn push(&mut self, name: impl Into<String>, bytes: Vec<u8>, is_image: bool) {
        let name = name.into();
        self.list.push(Case {
            name,
            bytes,
            is_image,
        });
    }
}

/// The layout of the reference's image after these records.
fn applied(records: &[MetadataRecord]) -> Layout {
    let mut witness = Witness::default();
    records.iter().for_each(|record| witness.see(record));
    let image = MetadataImage::from_records(Uuid::nil(), records);
    layout(&observe(&image, &witness))
}

impl Layout {
    /// The first entry of a kind.
    fn place_of(&self, kind: u8) -> usize {
        let of_kind = |entry: &Vec<u8>| entry[0] == kind;
        self.entries.iter().position(of_kind).expect("an entry")
    }

    /// Another entry in the place of the first of its kind.
    fn with(mut self, entry: Vec<u8>) -> Self {
        let place = self.place_of(entry[0]);
        self.entries[place] = entry;
        self
    }

    fn insert(mut self, place: usize, entry: Vec<u8>) -> Self {
        self.entries.insert(place, entry);
        self
    }

    fn append(mut self, entry: Vec<u8>) -> Self {
        self.entries.push(entry);
        self
    }

    fn roomy(&self) -> Vec<u8> {
        self.bytes(ROOMY)
    }
}
