//! Pairs of recordings that come of one drawn history.

use krabka_metadata::{
    BrokerRegistrationChangeRecord, MetadataRecord, NodeId, UnregisterBrokerRecord,
};
use oracle::facts::build::{broker_config, delete_topic, most_configs, producer_ids, quota};
use oracle::held::is_held;
use wire::{Random, damaged, encoded, encoded_offset, read_logged};

use super::super::drawn::Drawn;
use super::super::reference::Reference;

/// How often each change of a run is drawn.
const DRAWS: usize = 2;
/// One history in so many keeps the records that leave i64: each ends its run.
const LEAVING: usize = 4;
/// A node that no history has.
const UNKNOWN: u64 = u64::MAX - 1;

pub struct Pair {
    pub what: &'static str,
    pub one: Vec<u8>,
    pub other: Vec<u8>,
    /// Whether they agree at every capacity.
    pub agrees: bool,
}

/// The history's whole records.
pub fn drawn_records(random: &mut Random, seed: u64) -> Vec<Vec<u8>> {
    let drawn = Drawn::of(random, seed);
    let keeps_all = random.below(LEAVING) == 0;
    let mut reference = Reference::new();
    let mut records = Vec::new();
    for input in drawn.inputs {
        if read_logged(&input) != Ok(input.len()) {
            continue;
        }
        match reference.after(records.len() as i64, &input) {
            Ok(after) => reference = after,
            Err(_) if keeps_all => {}
            Err(_) => continue,
        }
        records.push(input);
    }
    records
}

/// The records beside themselves, and beside what each change makes of them.
/// Runs that are not held against the reference are left out.
pub fn pairs(random: &mut Random, records: &[Vec<u8>]) -> Vec<Pair> {
    let run = records.concat();
    let mut pairs = vec![Pair {
        what: "equal",
        one: run.clone(),
        other: run.clone(),
        agrees: true,
    }];
    let draws = if records.is_empty() { 0 } else { DRAWS };
    for _ in 0..draws {
        pairs.extend(changed(random, records));
        pairs.extend(inserted(random, records));
    }
    pairs.retain(|pair| is_held(&pair.one) && is_held(&pair.other));
    pairs
}

/// The run beside itself with one record changed.
fn changed(random: &mut Random, records: &[Vec<u8>]) -> Vec<Pair> {
    let place = random.below(records.len());
    let own = || vec![records[place].clone()];
    let (run, any) = (
        records.concat(),
        records[random.below(records.len())].clone(),
    );
    let cut = run[..random.below(run.len())].to_vec();
    let others = [
        ("replaced", with(records, place, 1, &[any])),
        ("dropped", with(records, place, 1, &[])),
        ("doubled", with(records, place, 0, &own())),
        ("swapped", swapped(records, place)),
        ("shorter", records[..place].concat()),
        ("cut", cut),
        (
            "damaged",
            with(records, place, 1, &[damaged(random, &records[place])]),
        ),
        (
            "a log offset",
            with(records, place, 0, &[encoded_offset(0)]),
        ),
    ];
    let pair = |(what, other)| Pair {
        what,
        one: run.clone(),
        other,
        agrees: false,
    };
    others.map(pair).into()
}

/// The run with some bytes at a place, beside the run with others there. The
/// heavy ones are more than most histories leave room for.
fn inserted(random: &mut Random, records: &[Vec<u8>]) -> [Pair; 5] {
    let place = random.below(records.len() + 1);
    let torn = [(); 2].map(|()| torn(random, records));
    let pair = |what, [one, other]: [Vec<Vec<u8>>; 2], agrees| Pair {
        what,
        one: with(records, place, 0, &one),
        other: with(records, place, 0, &other),
        agrees,
    };
    let [nothing, group] = without_effect();
    let swapped = [
        vec![nothing.clone(), group.clone()],
        vec![group.clone(), nothing.clone()],
    ];
    [
        pair("without effect", [vec![nothing], vec![group]], false),
        pair("without effect, swapped", swapped, false),
        pair("another text", another_text(random), true),
        pair(
            "heavy",
            ["h", "i"].map(|name| vec![encoded(&most_configs(name))]),
            false,
        ),
        Pair {
            what: "torn",
            one: [records[..place].concat(), torn[0].clone()].concat(),
            other: [records[..place].concat(), torn[1].clone()].concat(),
            agrees: false,
        },
    ]
}

/// The records with others in place of some.
fn with(records: &[Vec<u8>], place: usize, count: usize, others: &[Vec<u8>]) -> Vec<u8> {
    let (before, behind) = (&records[..place], &records[place + count..]);
    [before, others, behind].concat().concat()
}

fn swapped(records: &[Vec<u8>], place: usize) -> Vec<u8> {
    let mut order = records.to_vec();
    if place + 1 < order.len() {
        order.swap(place, place + 1);
    }
    order.concat()
}

/// The beginning of one of the records, at least a byte of it.
fn torn(random: &mut Random, records: &[Vec<u8>]) -> Vec<u8> {
    let record = &records[random.below(records.len())];
    record[..1 + random.below(record.len() - 1)].to_vec()
}

/// Two records that no snapshot shows: producer ids that are not above the
/// stored ones, and the removal of an unknown config, which leaves an empty
/// group that takes room.
pub fn without_effect() -> [Vec<u8>; 2] {
    [
        encoded(&producer_ids(1, 0, 0)),
        encoded(&broker_config(UNKNOWN, "no.such", None)),
    ]
}

/// "A different text with the same effect": unknown topics are deleted, an
/// unknown broker is changed or goes, two configs leave one empty group, and a
/// quota's entities stand in another order.
fn another_text(random: &mut Random) -> [Vec<Vec<u8>>; 2] {
    let change = BrokerRegistrationChangeRecord::no_change(NodeId(UNKNOWN), 1);
    let gone = UnregisterBrokerRecord {
        node_id: NodeId(UNKNOWN),
        broker_epoch: 1,
    };
    let (user, client) = (("user", Some("u")), ("client-id", None));
    let rate = |entities: &[(&str, Option<&str>)]| quota(entities, "rate", Some(1.0));
    let removed = |name| broker_config(UNKNOWN, name, None);
    let texts = [
        ["no.such", "no.other"].map(delete_topic),
        [
            MetadataRecord::V1BrokerRegistrationChange(change),
            MetadataRecord::V1UnregisterBroker(gone),
        ],
        ["no.such", "no.other"].map(removed),
        [rate(&[user, client]), rate(&[client, user])],
    ];
    let [one, other] = &texts[random.below(texts.len())];
    [one, other].map(|record| vec![encoded(record)])
}
