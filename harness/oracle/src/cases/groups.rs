//! The empty groups behind the stored entries.

use krabka_metadata::MetadataRecord;
use wire::encoded;

use super::samples::all_kinds;
use super::{Cases, applied};
use crate::facts::build::{broker_config, feature_level, quota};

pub fn add(cases: &mut Cases) {
    beside_members(cases);
    tail(cases);
    stored(cases);
}

fn empty_config(node: u64) -> MetadataRecord {
    broker_config(node, "", None)
}

fn empty_quota(entities: &[(&str, Option<&str>)]) -> MetadataRecord {
    quota(entities, "", None)
}

fn beside_members(cases: &mut Cases) {
    let mut records = [broker_config(1, "a", Some("x")), empty_config(2)];
    cases.image("an empty group of another node", applied(&records).roomy());
    records[1] = broker_config(2, "a", Some("x"));
    let both = applied(&records).append(encoded(&empty_config(2)));
    cases.no_image("an empty broker group beside a member", both.roomy());

    let user = [("user", Some("a"))];
    let members = applied(&[quota(&user, "rate", Some(0.0))]);
    let other = [("user", Some("b"))];
    for (name, entities) in [("another name", &other[..]), ("no entities", &[])] {
        let layout = members.clone().append(encoded(&empty_quota(entities)));
        cases.image(format!("an empty quota group of {name}"), layout.roomy());
    }
    let both = members.append(encoded(&empty_quota(&user)));
    cases.no_image("an empty quota group beside a member", both.roomy());
}

/// What may stand in the tail, and in which order.
fn tail(cases: &mut Cases) {
    let lists: [(&str, &[MetadataRecord], bool); 14] = [
        ("nodes", &[empty_config(3), empty_config(4)], true),
        ("nodes, turned", &[empty_config(4), empty_config(3)], false),
        ("a node twice", &[empty_config(3), empty_config(3)], false),
        ("kinds", &[empty_config(3), empty_quota(&[])], true),
        ("kinds, turned", &[empty_quota(&[]), empty_config(3)], false),
        (
            "quotas",
            &[empty_quota(&[]), empty_quota(&[("ip", None)])],
            true,
        ),
        (
            "quotas, turned",
            &[empty_quota(&[("ip", None)]), empty_quota(&[])],
            false,
        ),
        (
            "equal quota types",
            &[empty_quota(&[("ip", Some("a")), ("ip", Some("b"))])],
            true,
        ),
        (
            "quota names out of order",
            &[empty_quota(&[("ip", Some("b")), ("ip", Some("a"))])],
            false,
        ),
        (
            "quota types out of order",
            &[empty_quota(&[("user", None), ("ip", None)])],
            false,
        ),
        (
            "a value",
            &[empty_config(3), broker_config(4, "a", Some("x"))],
            false,
        ),
        (
            "an empty value",
            &[empty_config(3), broker_config(4, "", Some(""))],
            false,
        ),
        (
            "a quota value",
            &[empty_config(3), quota(&[], "", Some(0.0))],
            false,
        ),
        (
            "another kind",
            &[empty_config(3), feature_level("z", 1)],
            false,
        ),
    ];
    for (name, records, is_image) in lists {
        let mut layout = applied(&[feature_level("a", 1)]);
        layout.entries.extend(records.iter().map(encoded));
        cases.push(format!("in the tail: {name}"), layout.roomy(), is_image);
    }
}

/// Without a value only an empty name is a group; with one it is a member.
fn stored(cases: &mut Cases) {
    let base = applied(&all_kinds());
    let first = base.place_of(6);
    for value in ["x", ""] {
        let layout = base
            .clone()
            .insert(first, encoded(&broker_config(1, "", Some(value))));
        cases.image(
            format!("an empty name with value {value:?}"),
            layout.roomy(),
        );
    }
    let named = base
        .clone()
        .insert(first, encoded(&broker_config(0, "a", None)));
    cases.no_image("a stored config without a value", named.roomy());
    let named = base.clone().append(encoded(&broker_config(9, "a", None)));
    cases.no_image("a name in the tail", named.roomy());
    let named = base
        .clone()
        .append(encoded(&quota(&[("zone", None)], "rate", None)));
    cases.no_image("a quota key in the tail", named.roomy());
    let early = base.insert(first, encoded(&empty_config(0)));
    cases.no_image("an empty group among the stored entries", early.roomy());
}
