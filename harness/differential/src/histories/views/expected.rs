//! What a viewer is to get, from the reference's records alone.

use krabka_metadata::{MetadataRecord, PatternType};
use wire::{OVER_A_LIMIT, WRONG_FIELD, encoded};

use crate::{view_freeze, view_partition, view_snapshot, view_topic};

/// The most bytes of a name.
const NAME_LIMIT: usize = 255;
/// A name that is not visible, existing or not.
const NOT_VISIBLE: u8 = 25;

#[derive(Debug)]
pub enum Question {
    Whole,
    Topic(Vec<u8>),
    Partition(Vec<u8>, i32),
    Freeze(Vec<u8>),
}

impl Question {
    pub fn ask(&self, image: &[u8], list: &[u8], out: &mut [u8]) -> Result<usize, u8> {
        match self {
            Self::Whole => view_snapshot(image, list, out),
            Self::Topic(name) => view_topic(image, list, name, out),
            Self::Partition(name, number) => view_partition(image, list, name, *number, out),
            Self::Freeze(name) => view_freeze(image, list, name, out),
        }
    }

    pub fn what(&self) -> &'static str {
        match self {
            Self::Whole => "view snapshot",
            Self::Topic(_) => "view topic",
            Self::Partition(..) => "view partition",
            Self::Freeze(_) => "view freeze",
        }
    }

    fn name(&self) -> Option<&[u8]> {
        match self {
            Self::Whole => None,
            Self::Topic(name) | Self::Partition(name, _) | Self::Freeze(name) => Some(name),
        }
    }
}

/// The topic's name that a stored record stands under.
pub fn named_by(record: &MetadataRecord) -> Option<&str> {
    match record {
        MetadataRecord::V1Topic(topic) => Some(&topic.name),
        MetadataRecord::V1Partition(partition) => Some(&partition.topic),
        MetadataRecord::V1PartitionOffsetAdvance(advance) => Some(&advance.topic),
        MetadataRecord::V1PartitionElr(elr) => Some(&elr.topic),
        MetadataRecord::V1PartitionRecovery(recovery) => Some(&recovery.topic),
        MetadataRecord::V1TopicConfig(config) => Some(&config.topic),
        _ => None,
    }
}

/// The topic's name that a record of the log is about.
fn about(record: &MetadataRecord) -> Option<&str> {
    match record {
        MetadataRecord::V1DeleteTopic(delete) => Some(&delete.name),
        MetadataRecord::V1PartitionDirAssignment(assignment) => Some(&assignment.topic),
        MetadataRecord::V1PartitionUpdate(update) => Some(&update.partition.topic),
        _ => named_by(record),
    }
}

fn is_visible(prefixes: &[String], name: &str) -> bool {
    prefixes
        .iter()
        .any(|prefix| name.starts_with(prefix.as_str()))
}

fn scope_counts(prefixes: &[String], pattern: PatternType, scope: &str) -> bool {
    let meets = |prefix: &String| scope.starts_with(prefix.as_str()) || prefix.starts_with(scope);
    match pattern {
        PatternType::Literal => is_visible(prefixes, scope),
        PatternType::Prefixed => prefixes.iter().any(meets),
    }
}

/// Whether a record of the log can change what counts.
pub fn concerns(prefixes: &[String], record: &MetadataRecord) -> bool {
    match record {
        MetadataRecord::V1TopicFreeze(freeze) => {
            scope_counts(prefixes, freeze.pattern_type, &freeze.scope)
        }
        _ => about(record).is_some_and(|name| is_visible(prefixes, name)),
    }
}

fn is_seen(prefixes: &[String], record: &MetadataRecord) -> bool {
    named_by(record).is_some_and(|name| is_visible(prefixes, name))
}

/// The bytes of the stored records that count for the viewer.
pub fn counted(prefixes: &[String], records: &[MetadataRecord]) -> Vec<u8> {
    let counts =
        |record: &&MetadataRecord| is_seen(prefixes, record) || is_freeze_counted(prefixes, record);
    records.iter().filter(counts).flat_map(encoded).collect()
}

fn is_freeze_counted(prefixes: &[String], record: &MetadataRecord) -> bool {
    match record {
        MetadataRecord::V1TopicFreeze(freeze) => {
            scope_counts(prefixes, freeze.pattern_type, &freeze.scope)
        }
        _ => false,
    }
}

/// The bytes that are to be written, or the refusal before the one for the
/// output.
pub fn found(
    prefixes: &[String],
    question: &Question,
    records: &[MetadataRecord],
) -> Result<Vec<u8>, u8> {
    let name = match question.name() {
        Some(name) => checked(prefixes, name)?,
        None => "",
    };
    let chosen: Vec<&MetadataRecord> = match question {
        Question::Whole => records
            .iter()
            .filter(|record| is_seen(prefixes, record))
            .collect(),
        Question::Topic(_) => records
            .iter()
            .filter(|record| is_topic(record, name))
            .collect(),
        Question::Partition(_, number) => {
            let is = |record: &&MetadataRecord| is_partition(record, name, *number);
            records.iter().filter(is).collect()
        }
        Question::Freeze(_) => freeze(prefixes, name, records).into_iter().collect(),
    };
    Ok(chosen.into_iter().flat_map(encoded).collect())
}

fn checked<'a>(prefixes: &[String], name: &'a [u8]) -> Result<&'a str, u8> {
    let text = std::str::from_utf8(name).map_err(|_| WRONG_FIELD)?;
    if name.len() > NAME_LIMIT {
        return Err(OVER_A_LIMIT);
    }
    match is_visible(prefixes, text) {
        true => Ok(text),
        false => Err(NOT_VISIBLE),
    }
}

fn is_topic(record: &MetadataRecord, name: &str) -> bool {
    matches!(record, MetadataRecord::V1Topic(topic) if topic.name == name)
}

fn is_partition(record: &MetadataRecord, name: &str, number: i32) -> bool {
    matches!(record, MetadataRecord::V1Partition(partition)
        if partition.topic == name && partition.partition == number)
}

/// Among the freezes that count: none of an internal name, the literal scope,
/// else the longest prefix.
fn freeze<'a>(
    prefixes: &[String],
    name: &str,
    records: &'a [MetadataRecord],
) -> Option<&'a MetadataRecord> {
    let mut best: Option<(usize, &MetadataRecord)> = None;
    for record in records
        .iter()
        .filter(|record| is_freeze_counted(prefixes, record))
    {
        let MetadataRecord::V1TopicFreeze(freeze) = record else {
            continue;
        };
        let rank = match freeze.pattern_type {
            PatternType::Literal if freeze.scope == name => usize::MAX,
            PatternType::Prefixed if name.starts_with(&freeze.scope) => freeze.scope.len(),
            _ => continue,
        };
        if best.is_none_or(|(other, _)| other < rank) {
            best = Some((rank, record));
        }
    }
    best.filter(|_| !name.starts_with("__"))
        .map(|(_, record)| record)
}
