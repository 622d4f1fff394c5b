//! Quotas in several spellings: entities of one type in any order. The
//! reference keeps those apart, so it is given lists that the harness sorted.

use std::collections::BTreeMap;

use krabka_metadata::{ClientQuotaRecord, EntityKey, MetadataRecord, QuotaEntity};
use oracle::generate::{Generator, Knobs};
use oracle::image::{MOST_CAPACITY, image, layout, weight};
use oracle::order::entity_key;
use oracle::shrink::{self, STEPS};
use oracle::snapshot::{start, starting};
use oracle::verdict::NO_IMAGE;
use wire::{NO_RECORD, Random, decode, encoded, encoded_all, hex};

use super::reference::Reference;
use super::{expect, told};
use crate::images::{Compared, Tally};
use crate::{apply, is_image, open, restore, snapshot, validate};

const CAPACITY: usize = 4_096;
/// Lists that are not longer are given in every order.
const ALL_ORDERS: usize = 5;
/// As many orders of a longer list.
const ORDERS: usize = 60;
/// The most quotas of a run.
const QUOTAS: usize = 12;

type List = Vec<QuotaEntity>;

/// Compares the spellings of a drawn list, and runs and old snapshots that hold
/// several spellings.
pub fn compare_quotas(tally: &mut Tally, seed: u64) -> Compared {
    let mut random = Random::beside(seed);
    let count = random.below(ALL_ORDERS + 1);
    let list = drawn(&mut random, count);
    let before = random.clone();
    compare_spellings(tally, &mut random, &list)
        .map_err(|difference| least_list(difference, &before, &list))?;
    let run = drawn_run(&mut random, seed);
    for compare in [compare_run, compare_old_snapshot] {
        compare(tally, &run).map_err(|difference| least_run(difference, &run, compare))?;
    }
    Ok(())
}

/// The difference of the fewest entities that show one.
fn least_list(difference: String, before: &Random, list: &List) -> String {
    let unmoved = |_: &QuotaEntity| Vec::new();
    let (list, difference) = shrink::least(STEPS, difference, list, unmoved, |list| {
        compare_spellings(&mut Tally::default(), &mut before.clone(), &list.to_vec())
    });
    let given = told(&encoded(&quota(&list, "rate", Some(1.0))));
    format!("{difference}\nof the orders of this:\n{given}")
}

/// The difference of the fewest records that show one, of those runs that could
/// be drawn.
fn least_run(
    difference: String,
    run: &[MetadataRecord],
    compare: fn(&mut Tally, &[MetadataRecord]) -> Compared,
) -> String {
    let simpler = |record: &MetadataRecord| {
        let others = shrink::simpler(&encoded(record)).into_iter();
        let read = others.filter_map(|other| decode(&other).ok());
        read.map(|(record, _)| record).collect()
    };
    let compare = |run: &[MetadataRecord]| match is_taken(run) {
        true => compare(&mut Tally::default(), run),
        false => Ok(()),
    };
    shrink::least(STEPS, difference, run, simpler, compare).1
}

/// Whether all records of a run are applied, and have room.
fn is_taken(run: &[MetadataRecord]) -> bool {
    let fresh = Some(Reference::new());
    let after = |reference: Option<Reference>, record: &MetadataRecord| {
        next(&reference?, &sorted(record)).filter(fits)
    };
    run.iter().fold(fresh, after).is_some()
}

/// The same entity eight times; an absent name, an empty one and others of one
/// type; types that begin other types; eight names of one type.
pub fn compare_named_quotas(tally: &mut Tally) -> Compared {
    let names = [None, Some(""), Some("a"), Some("aa"), Some("b")];
    let types = ["", "u", "user", "user-", "users"];
    let lists = [
        vec![entity("user", Some("a")); 8],
        names.map(|name| entity("user", name)).to_vec(),
        types.map(|name| entity(name, Some("a"))).to_vec(),
        (0..8)
            .map(|n| entity("ip", Some(&format!("{n}"))))
            .collect(),
    ];
    let mut random = Random::new(0);
    lists
        .iter()
        .try_for_each(|list| compare_spellings(tally, &mut random, list))
}

fn entity(entity_type: &str, name: Option<&str>) -> QuotaEntity {
    QuotaEntity {
        entity_type: entity_type.to_owned(),
        entity_name: name.map(str::to_owned),
    }
}

/// Few types and names, so that equal types and equal entities meet.
fn drawn(random: &mut Random, count: usize) -> List {
    let draw = |_| {
        let name = random.pick(&["user", "user", "user", "us", "users", ""]);
        entity(
            name,
            random.pick(&[None, Some(""), Some("a"), Some("ab"), Some("b")]),
        )
    };
    (0..count).map(draw).collect()
}

fn quota(entity: &List, key: &str, value: Option<f64>) -> MetadataRecord {
    MetadataRecord::V1ClientQuota(ClientQuotaRecord {
        entity: entity.clone(),
        config_key: key.to_owned(),
        config_value: value,
    })
}

/// The record with its entities by type, then name, an absent name first.
fn sorted(record: &MetadataRecord) -> MetadataRecord {
    let mut record = record.clone();
    if let MetadataRecord::V1ClientQuota(quota) = &mut record {
        quota
            .entity
            .sort_by_key(|e| (e.entity_type.clone(), e.entity_name.clone()));
    }
    record
}

/// All orders of a short list, some of a longer one.
fn orders(random: &mut Random, list: &List) -> Vec<List> {
    if list.len() > ALL_ORDERS {
        return (0..ORDERS).map(|_| shuffled(random, list)).collect();
    }
    let Some((first, rest)) = list.split_first() else {
        return vec![Vec::new()];
    };
    let mut all = Vec::new();
    for order in orders(random, &rest.to_vec()) {
        for place in 0..=order.len() {
            let mut order = order.clone();
            order.insert(place, first.clone());
            all.push(order);
        }
    }
    all
}

fn shuffled(random: &mut Random, list: &List) -> List {
    let mut order = Vec::new();
    for entity in list {
        order.insert(random.below(order.len() + 1), entity.clone());
    }
    order
}

/// In every order the quota leaves the buffer of the sorted one; its removal,
/// in any order, leaves the same empty group; and an image that holds the list
/// as it is given is one exactly where it is in order.
fn compare_spellings(tally: &mut Tally, random: &mut Random, list: &List) -> Compared {
    let with = after(&Reference::new(), &quota(list, "rate", Some(1.0)));
    let without = after(&with, &quota(list, "rate", None));
    let (stored, left) = (laid_out(&with), laid_out(&without));
    for order in orders(random, list) {
        let mut buffer = random.bytes(CAPACITY);
        open(&mut buffer).map_err(|number| format!("Open says {number}"))?;
        let given = quota(&order, "rate", Some(1.0));
        let number = apply(&mut buffer, with.offset, &encoded(&given));
        expect(tally, "a quota in another order", number, 0)?;
        same(&buffer, &stored, &given)?;
        let other = quota(&shuffled(random, list), "rate", None);
        let number = apply(&mut buffer, without.offset, &encoded(&other));
        expect(tally, "a removal in another order", number, 0)?;
        same(&buffer, &left, &other)?;
        compare_given(tally, &given)?;
    }
    Ok(())
}

/// The reference after the quota with its list sorted.
fn after(reference: &Reference, quota: &MetadataRecord) -> Reference {
    next(reference, &sorted(quota)).expect("a quota is applied")
}

/// The reference after a record at the next log offset.
fn next(reference: &Reference, record: &MetadataRecord) -> Option<Reference> {
    let offset = reference.offset + 1;
    reference.after(offset, &encoded(record)).ok()
}

fn laid_out(reference: &Reference) -> Vec<u8> {
    image(&reference.observed(), CAPACITY).expect("one quota fits")
}

fn same(buffer: &[u8], expected: &[u8], given: &MetadataRecord) -> Compared {
    match buffer == expected {
        true => Ok(()),
        false => Err(format!(
            "{given:?} leaves another buffer than the sorted list"
        )),
    }
}

/// The image with the quota's entry as it is given, in the order or not.
fn compare_given(tally: &mut Tally, given: &MetadataRecord) -> Compared {
    let mut layout = layout(&Reference::new().observed());
    layout.entries = vec![encoded(given)];
    let mut buffer = layout.bytes(CAPACITY);
    let ordered = encoded(&sorted(given)) == layout.entries[0];
    tally.count("an image with a list as given", u8::from(ordered));
    if (is_image(&buffer) == 1) != ordered {
        return Err(format!("the exact test of {given:?}, in order: {ordered}"));
    }
    if ordered {
        return Ok(());
    }
    let before = buffer.clone();
    let mut out = vec![0; CAPACITY];
    let numbers = [
        validate(&buffer, &layout.entries[0]),
        apply(&mut buffer, 0, &layout.entries[0]),
        snapshot(&buffer, &mut out).err().unwrap_or(0),
    ];
    for number in numbers {
        expect(tally, "operations on the old order", number, NO_IMAGE)?;
    }
    match buffer == before {
        true => Ok(()),
        false => Err("Apply changes what is no image".to_owned()),
    }
}

/// Quotas of few lists in any order, of two quota keys, some of them removals;
/// between them other records.
fn drawn_run(random: &mut Random, seed: u64) -> Vec<MetadataRecord> {
    let lists = [2, 3].map(|count| drawn(random, count));
    let mut generator = Generator::new(seed, Knobs::default());
    let mut reference = Reference::new();
    let mut run = Vec::new();
    for _ in 0..=random.below(QUOTAS) {
        let list = &lists[random.below(lists.len())];
        let value = random.percent(75).then(|| random.below(100) as f64);
        let key = random.pick(&["rate", "other"]);
        let records = [
            quota(&shuffled(random, list), key, value),
            generator.record(&reference.image),
        ];
        for record in records {
            let after = next(&reference, &sorted(&record)).filter(fits);
            if let Some(after) = after {
                reference = after;
                run.push(record);
            }
        }
    }
    run
}

fn fits(reference: &Reference) -> bool {
    weight(&reference.observed()) <= MOST_CAPACITY
}

/// What the quotas of a run leave: for each list and quota key the value of the
/// last record, none where that one has none.
fn later_values(run: &[MetadataRecord]) -> BTreeMap<(EntityKey, String), u64> {
    let mut values = BTreeMap::new();
    for record in run.iter().map(sorted) {
        if let MetadataRecord::V1ClientQuota(quota) = record {
            let place = (entity_key(&quota.entity), quota.config_key);
            match quota.config_value {
                Some(value) => values.insert(place, value.to_bits()),
                None => values.remove(&place),
            };
        }
    }
    values
}

/// The quotas of an image, from its snapshot. An entity list that stands in two
/// spellings is two groups here.
fn stored_values(buffer: &[u8]) -> Result<BTreeMap<(EntityKey, String), u64>, String> {
    let mut out = vec![0; MOST_CAPACITY];
    let end = snapshot(buffer, &mut out).map_err(|number| format!("Snapshot says {number}"))?;
    let (_, first) = start(&out[..end]).map_err(|number| format!("{number} at the start"))?;
    let (mut rest, mut values) = (&out[first..end], BTreeMap::new());
    while let Ok((record, used)) = decode(rest) {
        if let MetadataRecord::V1ClientQuota(quota) = record {
            let place = (entity_key(&quota.entity), quota.config_key);
            values.insert(place, quota.config_value.unwrap_or_default().to_bits());
        }
        rest = &rest[used..];
    }
    Ok(values)
}

/// Restore of a run leaves the image of its records with their lists sorted,
/// and the last record's values.
fn compare_run(tally: &mut Tally, run: &[MetadataRecord]) -> Compared {
    compare_restored(tally, "a run with several spellings", run, MOST_CAPACITY).map(|_| ())
}

/// The old rule's snapshot of the run, restored with just the room that its
/// image has.
fn compare_old_snapshot(tally: &mut Tally, run: &[MetadataRecord]) -> Compared {
    let old = run.iter().fold(Reference::new(), |old, record| {
        next(&old, record).unwrap_or(old)
    });
    let old = old.restarted();
    let snapshot = old.observed().records;
    let capacity = weight(&old.observed());
    let values = compare_restored(tally, "an old snapshot", &snapshot, capacity)?;
    let quotas = snapshot
        .iter()
        .filter(|record| matches!(record, MetadataRecord::V1ClientQuota(_)));
    let two = quotas.count() > values;
    tally.count("an old snapshot with a quota in two spellings", two);
    Ok(())
}

/// Restores the run, and says how many quotas there are then.
fn compare_restored(
    tally: &mut Tally,
    what: &'static str,
    run: &[MetadataRecord],
    capacity: usize,
) -> Result<usize, String> {
    let bytes = starting(NO_RECORD, &encoded_all(run));
    let mut buffer = vec![0xA5; capacity];
    let answer = restore(&mut buffer, &bytes);
    tally.count(what, 0);
    if answer != Ok(()) {
        return Err(format!("Restore says {answer:?} of {}", hex(&bytes)));
    }
    let sorted: Vec<MetadataRecord> = run.iter().map(sorted).collect();
    let sorted = starting(NO_RECORD, &encoded_all(&sorted));
    let (reference, stopped) = Reference::restored(&sorted, capacity);
    let expected = image(&reference.observed(), capacity);
    if stopped.is_some() || expected.as_ref() != Some(&buffer) {
        return Err(format!("Restore leaves another image of {}", hex(&bytes)));
    }
    let values = stored_values(&buffer)?;
    match values == later_values(run) {
        true => Ok(values.len()),
        false => Err(format!("other values than the last of {}", hex(&bytes))),
    }
}
