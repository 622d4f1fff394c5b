//! The names of the kinds and of the values that choose, held to the crate's.

use std::fmt::Debug;

use jeghatuf::{Action, Fencing, Kind, PatternType, Protocol, Recovery};

use crate::table::{ACTIONS, FENCINGS, KINDS, PATTERNS, PROTOCOLS, RECOVERIES};

/// `ThawTopicFreeze` as `thaw_topic_freeze`.
fn lower(value: impl Debug) -> String {
    let mut name = String::new();
    for letter in format!("{value:?}").chars() {
        if letter.is_uppercase() && !name.is_empty() {
            name.push('_');
        }
        name.extend(letter.to_lowercase());
    }
    name
}

fn names<T: Copy + Debug>(all: &[T]) -> Vec<String> {
    all.iter().copied().map(lower).collect()
}

#[test]
fn values_have_the_names_of_the_crate() {
    assert_eq!(PATTERNS, names(PatternType::ALL));
    assert_eq!(ACTIONS, names(Action::ALL));
    assert_eq!(RECOVERIES, names(Recovery::ALL));
    assert_eq!(FENCINGS, names(Fencing::ALL));
    assert_eq!(PROTOCOLS, names(Protocol::ALL));
}

#[test]
fn kinds_have_the_names_of_the_crate() {
    let kinds: Vec<String> = Kind::ALL.iter().map(|kind| format!("{kind:?}")).collect();
    let names: Vec<&str> = KINDS.iter().map(|shape| shape.name).collect();
    assert_eq!(names, kinds);
}
