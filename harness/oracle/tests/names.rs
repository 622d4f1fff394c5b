//! The rule on topics' names, held to names with known answers.

use krabka_metadata::{MetadataError, MetadataImage};
use oracle::facts::build::{applied, topic};
use oracle::names::is_lawful;
use oracle::verdict::{ACCEPTED, UNLAWFUL_NAME, judged, verdict};
use uuid::Uuid;

#[test]
fn names_that_kafka_allows() {
    for name in [
        "a", "Z", "0", "_", "-", "...", ".a", "..a", "Smith-2", "A.b_c-9",
    ] {
        assert!(is_lawful(name), "{name:?}");
    }
    assert!(is_lawful(&"n".repeat(249)));
    assert!(is_lawful(&".".repeat(249)));
}

#[test]
fn names_that_kafka_does_not_allow() {
    for name in [
        "", ".", "..", "Smith/2", "a b", "a\0", "é", "𝄞", "a,", "a:", "@", "[", "`", "{",
    ] {
        assert!(!is_lawful(name), "{name:?}");
    }
    for length in 250..=256 {
        assert!(!is_lawful(&"n".repeat(length)), "{length} bytes");
    }
}

/// The reference takes such a name, and says that the topic exists where it
/// does; the harness's rule comes before both.
#[test]
fn the_rule_comes_before_the_reference() {
    let record = topic("Smith/2", 1, 0, 1);
    let fresh = MetadataImage::new(Uuid::nil());
    assert_eq!(verdict(&fresh, &record), ACCEPTED);
    assert_eq!(judged(&fresh, &record), UNLAWFUL_NAME);
    let stored = applied(std::slice::from_ref(&record));
    let refused = stored.validate(&record);
    assert!(matches!(refused, Err(MetadataError::TopicExists(_))));
    assert_eq!(judged(&stored, &record), UNLAWFUL_NAME);
}
