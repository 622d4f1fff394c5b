//! Freezes, throttles, the listing for a downgrade and the snapshot of an
//! image, each against the reference's own answer.

use std::collections::BTreeSet;

use krabka_metadata::{MetadataImage, MetadataRecord, NodeId};
use oracle::downgrade::downgrade as listing;
use oracle::observe::Observed;
use oracle::snapshot::snapshot as snapshot_of;
use oracle::verdict::NO_IMAGE;
use wire::choices::THROTTLE_KINDS;
use wire::{WRONG_FIELD, encoded, encoded_all};

use super::lookups::{bad_names, compare_record, compare_refused, compare_value, queries, told};
use super::subject::{On, Subject};
use super::{Compared, Tally};
use crate::{downgrade, freeze, snapshot, throttle};

/// Levels at which the listing changes, those beside them, and the ends.
pub const LEVELS: [i16; 10] = [i16::MIN, -1, 0, 16, 17, 18, 29, 30, 31, i16::MAX];

/// All of them on `image`, which holds what the subject does.
pub fn compare(tally: &mut Tally, subject: &Subject, image: &[u8]) -> Compared {
    compare_stored(tally, subject, image)?;
    subject.compare(tally, image, &[compare_bad_names])
}

/// Those by what is stored and by what is near it.
pub fn compare_stored(tally: &mut Tally, subject: &Subject, image: &[u8]) -> Compared {
    let rules: [On; 4] = [
        compare_freezes,
        compare_throttles,
        compare_downgrades,
        compare_snapshot,
    ];
    subject.compare(tally, image, &rules)
}

/// The names of topics, the scopes of freezes, and names near them.
pub fn frozen_names(image: &MetadataImage) -> BTreeSet<String> {
    let mut names = queries::names(image);
    for freeze in image.topic_freezes() {
        names.extend(queries::near_name(&freeze.scope));
        names.insert(freeze.scope.clone());
        names.insert(format!("__{}", freeze.scope));
    }
    names.retain(|name| name.len() <= 255);
    names.extend(["_", "__", "_x"].map(str::to_owned));
    names
}

fn compare_freezes(tally: &mut Tally, subject: &Subject, image: &[u8]) -> Compared {
    for name in frozen_names(&subject.image) {
        let record = subject.image.topic_freeze(&name).cloned();
        let record = record.map(|freeze| encoded(&MetadataRecord::V1TopicFreeze(freeze)));
        let question = || format!("the freeze of {name:?}");
        let call = |out: &mut [u8]| freeze(image, name.as_bytes(), out);
        compare_record(tally, "freeze", question, record, call)?;
    }
    Ok(())
}

fn compare_bad_names(tally: &mut Tally, _: &Subject, image: &[u8]) -> Compared {
    for (name, number) in bad_names() {
        let question = || format!("the freeze of {}", told(&name));
        let call = |out: &mut [u8]| freeze(image, &name, out);
        compare_refused(tally, "freeze", question, number, call)?;
    }
    Ok(())
}

/// The brokers' nodes, those that have configs, and others.
pub fn throttled_nodes(image: &MetadataImage, observed: &Observed) -> BTreeSet<u64> {
    let mut nodes = queries::nodes(image);
    let configs = observed.records.iter().filter_map(|record| match record {
        MetadataRecord::V1BrokerConfig(config) => Some(config.node_id.0),
        _ => None,
    });
    nodes.extend(configs);
    nodes
}

fn compare_throttles(tally: &mut Tally, subject: &Subject, image: &[u8]) -> Compared {
    for node in throttled_nodes(&subject.image, &subject.observed) {
        for (number, kind) in (0..).zip(THROTTLE_KINDS) {
            let rate = subject.image.broker_throttle_rate(NodeId(node), kind);
            let rate = rate.map(|rate| rate.bytes_per_sec);
            let what = match rate {
                Some(_) => "throttle, set",
                None => "throttle, none",
            };
            let call = |value: &mut [u64]| throttle(image, node, number, value);
            compare_value(tally, what, Ok(rate), call)?;
        }
    }
    Ok(())
}

/// Every kind byte but the three.
pub fn compare_no_kinds(tally: &mut Tally, image: &[u8]) -> Compared {
    for kind in 3..=255 {
        let call = |value: &mut [u64]| throttle(image, 1, kind, value);
        compare_value(tally, "throttle of no kind", Err(WRONG_FIELD), call)?;
    }
    Ok(())
}

fn compare_downgrades(tally: &mut Tally, subject: &Subject, image: &[u8]) -> Compared {
    for level in LEVELS {
        let records = encoded_all(&listing(&subject.image, level));
        let question = || format!("the listing for {level}");
        let call = |out: &mut [u8]| downgrade(image, level, out);
        compare_record(tally, "downgrade", question, Some(records), call)?;
    }
    Ok(())
}

fn compare_snapshot(tally: &mut Tally, subject: &Subject, image: &[u8]) -> Compared {
    let records = snapshot_of(&subject.observed);
    let question = || "the snapshot".to_owned();
    let call = |out: &mut [u8]| snapshot(image, out);
    compare_record(tally, "snapshot", question, Some(records), call)
}

/// Each says 1, whatever is asked, and leaves its output.
pub fn compare_no_image(tally: &mut Tally, buffer: &[u8]) -> Compared {
    let what = "freeze, throttle, downgrade and snapshot of no image";
    let names: [&[u8]; 4] = [b"p", b"__", &[0xff], &[b'n'; 256]];
    for name in names {
        let call = |out: &mut [u8]| freeze(buffer, name, out);
        compare_refused(tally, what, || "a freeze".to_owned(), NO_IMAGE, call)?;
    }
    for kind in [0, 3] {
        let call = |value: &mut [u64]| throttle(buffer, 1, kind, value);
        compare_value(tally, what, Err(NO_IMAGE), call)?;
    }
    let call = |out: &mut [u8]| downgrade(buffer, 0, out);
    compare_refused(tally, what, || "a listing".to_owned(), NO_IMAGE, call)?;
    let call = |out: &mut [u8]| snapshot(buffer, out);
    compare_refused(tally, what, || "a snapshot".to_owned(), NO_IMAGE, call)
}
