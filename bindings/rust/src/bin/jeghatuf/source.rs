//! The image of a file: of a log, run record by record, or of a snapshot, restored.

use std::ffi::OsStr;

use jeghatuf::{Image, Kind, Record, Refusal, calls};

use crate::failure::{Failure, Status, numbered, say};
use crate::input::{Input, Window};
use crate::run::{self, HEADER};
use crate::{table, words};

/// The most bytes that a record's header can speak of, itself included.
pub const MOST_HEADED: usize = HEADER + u16::MAX as usize;

/// How many refused records are named; the others are counted.
const MOST_NAMED: u64 = 100;

/// An image, and whether all of its file was taken.
pub struct Source {
    pub image: Image,
    pub status: Status,
    /// What lines call the file.
    pub name: String,
}

impl Source {
    pub fn open(word: &OsStr, capacity: usize) -> Result<Self, Failure> {
        let input = Input::open(word)?;
        let name = input.name.clone();
        let mut window = Window::new(input);
        window.fill(1)?;
        let (image, status) = match window.rest().first() {
            Some(kind) if *kind == Kind::LogOffset.number() => {
                (restored(window, capacity)?, Status::Good)
            }
            _ => of_log(window, capacity)?,
        };
        Ok(Self {
            image,
            status,
            name,
        })
    }

    /// A refusal of a call on its image.
    pub fn refused(&self, refusal: Refusal) -> Failure {
        Failure::refused(&self.name, refusal)
    }

    pub fn snapshot(&self) -> Result<Vec<u8>, Failure> {
        let snapshot = self.image.snapshot();
        snapshot.map_err(|refusal| self.refused(refusal))
    }
}

/// The image of a snapshot. A refusal ends the command.
pub fn restored(mut window: Window, capacity: usize) -> Result<Image, Failure> {
    window.fill(usize::MAX)?;
    let image = Image::restore(capacity, window.rest());
    image.map_err(|stopped| Failure::stopped(window.name(), stopped))
}

/// The image after a log's records. Each is given to Validate and, where that takes it, to
/// Apply, at its number from 0. A refused one is said and skipped; the next one begins where
/// its header says.
fn of_log(mut window: Window, capacity: usize) -> Result<(Image, Status), Failure> {
    let image = Image::open(capacity);
    let mut image = image.map_err(|refusal| Failure::refused(window.name(), refusal))?;
    let mut refused = 0;
    for number in 0.. {
        window.fill(MOST_HEADED)?;
        let rest = window.rest();
        if rest.is_empty() {
            break;
        }
        let length = run::length(rest).unwrap_or(HEADER);
        let record = rest.get(..length).unwrap_or(rest);
        let taken = image
            .validate(record)
            .and_then(|()| image.apply(number, record));
        if let Err(refusal) = taken {
            refused += 1;
            if refused <= MOST_NAMED {
                let place = Place::new(number.unsigned_abs(), window.place);
                say(&format!(
                    "{}: {}",
                    window.name(),
                    verdict(place, record, refusal)
                ));
            }
        }
        window.pass(length);
    }
    if refused > MOST_NAMED {
        let further = words::count(refused - MOST_NAMED, "further record", "further records");
        say(&format!("{}: {further} refused", window.name()));
    }
    Ok((image, Status::refused_if(refused > 0)))
}

/// Where a record is in a file: its number, and the byte that it begins at.
#[derive(Clone, Copy)]
pub struct Place {
    pub number: u64,
    pub byte: u64,
}

impl Place {
    pub fn new(number: u64, byte: u64) -> Self {
        Self { number, byte }
    }
}

/// What was refused of whom: `record 9 at byte 713: partition 0 (room list) of plan-0044:
/// 7, an unknown topic or partition`.
pub fn verdict(place: Place, record: &[u8], refusal: Refusal) -> String {
    let Place { number, byte } = place;
    let (about, refusal) = (about(record), numbered(refusal));
    format!("record {number} at byte {byte}: {about}: {refusal}")
}

/// What a record is about, or its kind's name where it does not read.
pub fn about(record: &[u8]) -> String {
    if let Ok(record) = Record::read(record) {
        return words::subject(&record);
    }
    let kind = record.first().and_then(|kind| table::kind(*kind));
    match (kind, record.first()) {
        (Some(shape), _) => shape.name.into(),
        (None, Some(number)) => format!("kind {number}"),
        (None, None) => "no record".into(),
    }
}

/// The records of bytes that the library wrote, each as its bytes.
pub fn pieces(mut bytes: &[u8]) -> Vec<&[u8]> {
    let mut pieces = Vec::new();
    while let Ok(used) = calls::read(bytes) {
        let Some((record, rest)) = bytes.split_at_checked(used) else {
            break;
        };
        pieces.push(record);
        bytes = rest;
    }
    pieces
}
