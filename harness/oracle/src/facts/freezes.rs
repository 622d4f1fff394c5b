//! Which freeze covers a name.

use krabka_metadata::{MetadataImage, MetadataRecord, PatternType};

use super::Facts;
use super::build::{applied, freeze, shown, thaw};
use crate::verdict::verdict;

/// The pattern and scope of the freeze that covers `name`.
pub fn covering(image: &MetadataImage, name: &str) -> String {
    let freeze = image.topic_freeze(name);
    shown(freeze.map(|freeze| format!("{:?} {:?}", freeze.pattern_type, freeze.scope)))
}

pub fn say(facts: &mut Facts) {
    empty_scopes(facts);
    internal_names(facts);
    literal_and_prefixed(facts);
    thawed(facts);
}

fn say_covering(facts: &mut Facts, what: &str, records: &[MetadataRecord], names: &[&str]) {
    let image = applied(records);
    for name in names {
        facts.say(
            format!("{what}, freeze of {name:?}"),
            covering(&image, name),
        );
    }
}

fn empty_scopes(facts: &mut Facts) {
    let image = applied(&[]);
    for (what, record) in [
        ("a freeze", freeze("", PatternType::Literal)),
        ("a prefixed freeze", freeze("", PatternType::Prefixed)),
        ("a thaw", thaw("", PatternType::Literal)),
        ("a prefixed thaw", thaw("", PatternType::Prefixed)),
    ] {
        facts.say(
            format!("validate {what} of an empty scope"),
            verdict(&image, &record),
        );
    }
    let names = ["room", "__room", "", "_", "_room", "__"];
    let prefixed = [freeze("", PatternType::Prefixed)];
    say_covering(facts, "prefix \"\"", &prefixed, &names);
    let literal = [freeze("", PatternType::Literal)];
    say_covering(facts, "literal \"\"", &literal, &["", "room"]);
}

fn internal_names(facts: &mut Facts) {
    let literal = [freeze("__room", PatternType::Literal)];
    say_covering(facts, "literal \"__room\"", &literal, &["__room"]);
    let prefixed = [freeze("_", PatternType::Prefixed)];
    say_covering(
        facts,
        "prefix \"_\"",
        &prefixed,
        &["_", "_x", "__", "__x", "x"],
    );
}

fn literal_and_prefixed(facts: &mut Facts) {
    let rooms = [
        freeze("room", PatternType::Literal),
        freeze("ro", PatternType::Prefixed),
        freeze("room", PatternType::Prefixed),
        freeze("room-7-b", PatternType::Prefixed),
        freeze("rp", PatternType::Prefixed),
    ];
    let names = ["room", "room-7", "roo", "ro", "r", "room-7-b", "rpm", "é"];
    say_covering(facts, "rooms", &rooms, &names);
    let wide = [
        freeze("é", PatternType::Prefixed),
        freeze("𝄞", PatternType::Literal),
    ];
    say_covering(facts, "wide", &wide, &["é", "éa", "è", "𝄞", "𝄞a"]);
}

fn thawed(facts: &mut Facts) {
    let both = [
        freeze("room", PatternType::Literal),
        freeze("room", PatternType::Prefixed),
    ];
    let literal = [&both[..], &[thaw("room", PatternType::Literal)]].concat();
    say_covering(facts, "literal thawed", &literal, &["room"]);
    let prefixed = [&both[..], &[thaw("room", PatternType::Prefixed)]].concat();
    say_covering(facts, "prefix thawed", &prefixed, &["room", "room-7"]);
}
