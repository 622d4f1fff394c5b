//! The premises of the theorem, and what it then says of two images.

use std::collections::{BTreeMap, BTreeSet};

use krabka_metadata::{MetadataRecord, TopicRecord};
use oracle::verdict::NO_ROOM;
use wire::decode;

use super::course::{Course, Verdict};
use super::reference::Reference;
use crate::images::{Compared, Tally, answers};

/// Whether the premises have held so far.
pub struct Premises {
    broken: bool,
}

impl Premises {
    /// The theorem speaks of histories that apply what Validate accepts.
    pub fn of(validated: bool) -> Self {
        Self { broken: !validated }
    }

    pub fn hold(&self) -> bool {
        !self.broken
    }

    /// Of each image that a step gets: no two topics share an id, and each
    /// partition of a topic has the topic's replication factor of replicas.
    pub fn see_image(&mut self, reference: &Reference) {
        self.broken |= !is_accurate(&reference.observed().records);
    }

    /// Of each record step: no negative epoch, and there is room.
    pub fn see_step(&mut self, input: &[u8], verdict: Verdict) {
        let negative = decode(input).is_ok_and(|(record, _)| is_negative_epoch(&record));
        self.broken |= negative || verdict.apply == Some(NO_ROOM);
    }
}

fn is_negative_epoch(record: &MetadataRecord) -> bool {
    matches!(record, MetadataRecord::V1FeaturesEpoch(r) if r.epoch < 0)
}

fn is_accurate(records: &[MetadataRecord]) -> bool {
    let topics: BTreeMap<&str, &TopicRecord> = records.iter().filter_map(topic).collect();
    let ids: BTreeSet<[u8; 16]> = topics.values().map(|t| *t.topic_id.as_bytes()).collect();
    let accurate = |record: &MetadataRecord| match record {
        MetadataRecord::V1Partition(part) => match topics.get(part.topic.as_str()) {
            Some(topic) => part.replicas.len() == topic.replication_factor as usize,
            None => true,
        },
        _ => true,
    };
    ids.len() == topics.len() && records.iter().all(accurate)
}

fn topic(record: &MetadataRecord) -> Option<(&str, &TopicRecord)> {
    match record {
        MetadataRecord::V1Topic(topic) => Some((topic.name.as_str(), topic)),
        _ => None,
    }
}

/// Every question has the same answer, whichever image it is put to.
pub fn alike(tally: &mut Tally, uncut: &Course, cut: &Course) -> Compared {
    let asked = answers::questions(&uncut.reference.image, &uncut.reference.observed());
    for question in &asked {
        let (one, other) = (question.put(&uncut.buffer), question.put(&cut.buffer));
        tally.count("answers of the cut and the uncut", "equal");
        if one != other {
            return Err(format!(
                "{question:?}: the cut history answers {other:?}, the uncut {one:?}"
            ));
        }
    }
    Ok(())
}
