//! Client quotas: their entities' order, their bits, their empty groups.

use krabka_metadata::{EntityKey, MetadataImage, MetadataRecord};

use super::Facts;
use super::build::{Entities, applied, cut, quota, shown};
use crate::observe::{Witness, observe};

pub fn say(facts: &mut Facts) {
    orders(facts);
    bits(facts);
    empty_groups(facts);
}

fn rate(entities: Entities, value: Option<f64>) -> MetadataRecord {
    quota(entities, "rate", value)
}

fn shown_entities(entities: &EntityKey) -> String {
    let entity = |(entity_type, name): &(String, Option<String>)| {
        format!("{entity_type}={}", shown(name.as_ref()))
    };
    let entities: Vec<String> = entities.iter().map(entity).collect();
    format!("[{}]", entities.join(" "))
}

/// The entity lists that have a group, in 01's order.
fn groups(image: &MetadataImage) -> String {
    let mut groups: Vec<&EntityKey> = image.client_quotas().keys().collect();
    groups.sort();
    let groups: Vec<String> = groups.into_iter().map(shown_entities).collect();
    groups.join(" ")
}

fn orders(facts: &mut Facts) {
    let lists: [Entities; 3] = [
        &[("user", Some("b")), ("ip", None), ("user", Some("a"))],
        &[("user", Some("a")), ("user", Some("b")), ("ip", None)],
        &[("user", Some("x")), ("user", None)],
    ];
    for list in lists {
        let image = applied(&[rate(list, Some(1.0))]);
        let given: EntityKey = list
            .iter()
            .map(|(kind, name)| (kind.to_string(), name.map(str::to_owned)))
            .collect();
        facts.say(
            format!("quota of {}", shown_entities(&given)),
            groups(&image),
        );
    }
    let both = applied(&[rate(lists[0], Some(1.0)), rate(lists[1], Some(1.0))]);
    facts.say(
        "quotas of the first two, groups",
        both.client_quotas().len(),
    );
    let none = applied(&[rate(&[], Some(1.0))]);
    facts.say("quota of no entities", groups(&none));
}

fn bits(facts: &mut Facts) {
    let values = [
        0x8000_0000_0000_0000,
        0x7FF0_0000_0000_0001,
        0xFFF4_0000_DEAD_BEEF,
    ];
    for bits in values {
        let image = cut(&applied(&[rate(
            &[("ip", None)],
            Some(f64::from_bits(bits)),
        )]));
        let stored = image
            .client_quotas()
            .values()
            .flat_map(|group| group.values());
        let restored: Vec<String> = stored
            .map(|value| format!("{:x}", value.to_bits()))
            .collect();
        facts.say(
            format!("quota of bits {bits:x}, restored"),
            restored.join(" "),
        );
    }
}

fn empty_groups(facts: &mut Facts) {
    let entities: Entities = &[("ip", Some("a"))];
    let empty = |image: &MetadataImage| observe(image, &Witness::default()).empty_quotas.len();
    let unknown = applied(&[rate(entities, None)]);
    facts.say(
        "empty quotas after removing from unknown entities",
        empty(&unknown),
    );
    let last = applied(&[rate(entities, Some(1.0)), rate(entities, None)]);
    facts.say("empty quotas after removing the last", empty(&last));
    facts.say("empty quotas restored", empty(&cut(&last)));
}
