//! 01's snapshot order, on lists that are written down in it.

use krabka_metadata::{MetadataImage, MetadataRecord, PatternType};
use oracle::facts::build::{Entities, broker_config, freeze, proposal, quota, recovering};
use oracle::generate::{Generator, Knobs};
use oracle::kind::kind;
use oracle::observe::{Witness, observe, same_records};
use oracle::order::sort;
use uuid::Uuid;

/// Sorts the reversed list and expects the list.
fn assert_ordered(ordered: &[MetadataRecord]) {
    let mut records: Vec<MetadataRecord> = ordered.iter().rev().cloned().collect();
    sort(&mut records);
    assert!(same_records(&records, ordered), "{records:?}");
}

fn config(node: u64, name: &str) -> MetadataRecord {
    broker_config(node, name, Some(""))
}

fn rate(entities: Entities, key: &str) -> MetadataRecord {
    quota(entities, key, Some(f64::NAN))
}

fn proposed(high: u64, low: u64) -> MetadataRecord {
    MetadataRecord::V1BreakGlassProposal(proposal(Uuid::from_u64_pair(high, low)))
}

#[test]
fn nodes_go_by_value_and_names_by_bytes() {
    assert_ordered(&[
        config(2, ""),
        config(2, "Z"),
        config(2, "a"),
        config(2, "a\u{0}"),
        config(2, "aa"),
        config(2, "é"),
        config(2, "𝄞"),
        config(10, "a"),
        config(u64::MAX, ""),
    ]);
}

#[test]
fn partitions_go_by_topic_and_value() {
    assert_ordered(&[
        recovering("a", i32::MIN),
        recovering("a", -1),
        recovering("a", 0),
        recovering("a", 2),
        recovering("a", 10),
        recovering("a-1", -1),
        recovering("b", -1),
    ]);
}

#[test]
fn entities_go_element_by_element() {
    assert_ordered(&[
        rate(&[], "z"),
        rate(&[("ip", None)], "a"),
        rate(&[("ip", None)], "b"),
        rate(&[("ip", None), ("ip", None)], "a"),
        rate(&[("ip", None), ("user", None)], "a"),
        rate(&[("ip", Some(""))], "a"),
        rate(&[("ip", Some("a")), ("ip", Some("b"))], "a"),
        rate(&[("ip", Some("c"))], "a"),
        rate(&[("ipa", None)], "a"),
    ]);
}

#[test]
fn literal_scopes_go_before_prefixed_ones() {
    assert_ordered(&[
        freeze("a", PatternType::Literal),
        freeze("z", PatternType::Literal),
        freeze("", PatternType::Prefixed),
        freeze("b", PatternType::Prefixed),
    ]);
}

#[test]
fn ids_go_by_bytes() {
    assert_ordered(&[
        proposed(0, 1),
        proposed(0, u64::MAX),
        proposed(1, 0),
        proposed(u64::MAX, 0),
    ]);
}

#[test]
fn groups_go_as_the_snapshot_has_them() {
    let groups = [
        3, 17, 6, 1, 2, 15, 21, 22, 5, 7, 8, 12, 16, 18, 19, 11, 13, 10,
    ];
    let mut met = Vec::new();
    let knobs = Knobs::default();
    for seed in 0..20 {
        let mut image = MetadataImage::new(Uuid::nil());
        for record in Generator::new(seed, knobs).history(200) {
            if knobs.applies(&image, &record) {
                image.apply(&record);
            }
        }
        let observed = observe(&image, &Witness::default());
        let mut kinds: Vec<u8> = observed.records.iter().filter_map(kind).collect();
        kinds.dedup();
        met.extend_from_slice(&kinds);
        let expected = groups.iter().filter(|group| kinds.contains(group));
        assert!(kinds.iter().eq(expected), "seed {seed}: {kinds:?}");
    }
    assert!(groups.iter().all(|group| met.contains(group)), "{met:?}");
}
