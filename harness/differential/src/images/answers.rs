//! Every question that an image answers, as a value.

use krabka_metadata::MetadataImage;
use oracle::freeze_list::{MOST_NAMES, list};
use oracle::observe::Observed;

use super::lookups::queries;
use super::rules::{LEVELS, frozen_names, throttled_nodes};
use crate::{
    broker, downgrade, features_epoch, freeze, freezes, log_offset, partition, short_count,
    snapshot, throttle, topic, topic_by_id,
};

/// The number or the bytes written, the output's end, and the values' end.
type Answer = (Result<usize, u8>, Vec<u8>, Vec<u64>);

/// Room for each record, and for the snapshots of the images that are asked.
const ROOM: usize = 70_000;

#[derive(Debug)]
pub enum Question {
    Topic(String),
    Id([u8; 16]),
    Partition(String, i32),
    Broker(u64),
    Epoch,
    Offset,
    Short,
    Freeze(String),
    /// Of a list of names.
    Freezes(Vec<u8>),
    Throttle(u64, u8),
    Downgrade(i16),
    Snapshot,
}

/// What is stored, and what is near it.
pub fn questions(image: &MetadataImage, observed: &Observed) -> Vec<Question> {
    use Question::*;
    let mut all = vec![Epoch, Offset, Short, Snapshot];
    all.extend(queries::names(image).into_iter().map(Topic));
    all.extend(queries::ids(image).into_iter().map(Id));
    let places = queries::partitions(image).into_iter();
    all.extend(places.map(|(name, number)| Partition(name, number)));
    all.extend(queries::nodes(image).into_iter().map(Broker));
    let names: Vec<String> = frozen_names(image).into_iter().collect();
    all.push(Freezes(list(&names[..names.len().min(MOST_NAMES)])));
    all.extend(names.into_iter().map(Freeze));
    for node in throttled_nodes(image, observed) {
        all.extend([0, 1, 2, 3].map(|kind| Throttle(node, kind)));
    }
    all.extend(LEVELS.map(Downgrade));
    all
}

impl Question {
    /// The whole answer of an image, with what it leaves of its outputs.
    pub fn put(&self, image: &[u8]) -> Answer {
        let mut out = vec![0x5A; ROOM];
        let mut values = vec![0x5A5A; 2];
        let number = match self {
            Self::Topic(name) => topic(image, name.as_bytes(), &mut out),
            Self::Id(id) => topic_by_id(image, id, &mut out),
            Self::Partition(name, number) => partition(image, name.as_bytes(), *number, &mut out),
            Self::Broker(node) => broker(image, *node, &mut out),
            Self::Epoch => features_epoch(image, &mut values),
            Self::Offset => log_offset(image, &mut values),
            Self::Short => short_count(image),
            Self::Freeze(name) => freeze(image, name.as_bytes(), &mut out),
            Self::Freezes(list) => freezes(image, list, &mut out, &mut values),
            Self::Throttle(node, kind) => throttle(image, *node, *kind, &mut values),
            Self::Downgrade(level) => downgrade(image, *level, &mut out),
            Self::Snapshot => snapshot(image, &mut out),
        };
        (number, out, values)
    }
}
