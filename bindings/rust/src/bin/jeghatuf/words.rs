//! Records, names and times in words.

use jeghatuf::shapes::Entity;
use jeghatuf::{DEFAULT_NODE, Fields, PatternType, Record};

use crate::bytes::hex;
use crate::spell;

/// A text without what could act on a terminal: quoted where there is such a thing, or
/// nothing.
pub fn plain(text: &str) -> String {
    let quoted = quoted(text);
    if quoted.len() == text.len() + 2 && !text.is_empty() {
        return text.into();
    }
    quoted
}

/// A text in quotes, with JSON's escapes.
pub fn quoted(text: &str) -> String {
    let mut out = Vec::new();
    spell::string(&mut out, text.as_bytes());
    String::from_utf8_lossy(&out).into_owned()
}

/// A name, quoted where it has other bytes than names usually have.
pub fn name(text: &str) -> String {
    let is_usual = |byte: u8| byte.is_ascii_alphanumeric() || b"._-".contains(&byte);
    if !text.is_empty() && text.bytes().all(is_usual) {
        return text.into();
    }
    quoted(text)
}

/// A partition by its number, and as the firm knows it.
pub fn partition(number: i32, topic: &str) -> String {
    format!("partition {} of {}", sheet(number), name(topic))
}

/// A partition's number, and which sheet of a plan it is.
pub fn sheet(number: i32) -> String {
    match number {
        0 => "0 (room list)".into(),
        1 => "1 (load sheet)".into(),
        _ => number.to_string(),
    }
}

pub fn broker(node: u64) -> String {
    match node {
        DEFAULT_NODE => "all brokers without their own".into(),
        _ => format!("broker {node}"),
    }
}

fn id(id: &[u8; 16]) -> String {
    let mut out = Vec::new();
    hex(&mut out, id);
    String::from_utf8_lossy(&out).into_owned()
}

fn entities(list: &[Entity]) -> String {
    let entity = |entity: &Entity| {
        let of = entity.entity_name.as_deref();
        let of = of.map_or("<default>".into(), name);
        format!("{}={of}", name(&entity.entity_type))
    };
    match list {
        [] => "everyone".into(),
        _ => list.iter().map(entity).collect::<Vec<_>>().join(" "),
    }
}

/// What a freeze covers.
pub fn scope(pattern: PatternType, scope: &str) -> String {
    match pattern {
        PatternType::Literal => format!("the name {}", name(scope)),
        PatternType::Prefixed => format!("every name that begins with {}", name(scope)),
    }
}

/// What a record is about: one subject for each key of its kind.
pub fn subject(record: &Record) -> String {
    match record.fields() {
        Fields::Topic(of) => format!("topic {}", name(&of.name)),
        Fields::Partition(of) => partition(of.partition, &of.topic),
        Fields::BrokerRegistration(of) => format!("broker {}", of.node_id),
        Fields::DeleteTopic(of) => format!("the end of topic {}", name(&of.name)),
        Fields::TopicConfig(of) => format!("configs of topic {}", name(&of.topic)),
        Fields::BrokerConfig(of) => {
            format!("config {} of {}", name(&of.config_name), broker(of.node_id))
        }
        Fields::ClientQuota(of) => {
            format!("quota {} of {}", name(&of.config_key), entities(&of.entity))
        }
        Fields::ProducerIds(_) => "producer ids".into(),
        Fields::UnregisterBroker(of) => format!("the end of broker {}", of.node_id),
        Fields::KRaftVersion(_) => "kraft version".into(),
        Fields::FeatureLevel(of) => format!("feature {}", name(&of.name)),
        Fields::ClientMetricsConfig(of) => format!("client metrics {}", name(&of.name)),
        Fields::FeaturesEpoch(_) => "features epoch".into(),
        Fields::PartitionDirAssignment(of) => {
            let of_partition = partition(of.partition, &of.topic);
            format!("directory of replica {} of {of_partition}", of.replica)
        }
        other => later_subject(other),
    }
}

fn later_subject(fields: Fields) -> String {
    match fields {
        Fields::PartitionOffsetAdvance(of) => {
            format!("offset of {}", partition(of.partition, &of.topic))
        }
        Fields::GroupConfig(of) => format!("configs of group {}", name(&of.group_id)),
        Fields::ControllerRegistration(of) => format!("controller {}", of.node_id),
        Fields::TopicFreeze(of) => format!("freeze of {}", scope(of.pattern_type, &of.scope)),
        Fields::BreakGlassProposal(of) => format!("proposal {}", id(&of.proposal_id)),
        Fields::DeleteBreakGlassProposal(of) => {
            format!("the end of proposal {}", id(&of.proposal_id))
        }
        Fields::PartitionElr(of) => {
            let of = partition(of.partition, &of.topic);
            format!("eligible leaders of {of}")
        }
        Fields::PartitionRecovery(of) => {
            format!("recovery of {}", partition(of.partition, &of.topic))
        }
        Fields::PartitionUpdate(of) => {
            let of = partition(of.partition.partition, &of.partition.topic);
            format!("update of {of}")
        }
        Fields::BrokerRegistrationChange(of) => format!("change of broker {}", of.node_id),
        Fields::UnregisterController(of) => format!("the end of controller {}", of.node_id),
        _ => "log offset".into(),
    }
}

/// So many of something, in words.
pub fn count(number: u64, one: &str, many: &str) -> String {
    let noun = if number == 1 { one } else { many };
    format!("{number} {noun}")
}

/// The moment of so many milliseconds since 1970: `2023-11-14 22:13:20.000 UTC`.
pub fn moment(milliseconds: i64) -> String {
    const DAY: i64 = 86_400_000;
    let (days, rest) = (milliseconds.div_euclid(DAY), milliseconds.rem_euclid(DAY));
    let (year, month, day) = date(days);
    let (hours, minutes) = (rest / 3_600_000, rest / 60_000 % 60);
    let (seconds, rest) = (rest / 1_000 % 60, rest % 1_000);
    format!("{year:04}-{month:02}-{day:02} {hours:02}:{minutes:02}:{seconds:02}.{rest:03} UTC")
}

/// The date of so many days since 1970. Counted from March on, so that a leap day is the
/// last of its year, and in eras of 400 years, which have the same days.
fn date(days: i64) -> (i64, i64, i64) {
    const ERA: i64 = 146_097;
    let days = days + 719_468;
    let (era, day) = (days.div_euclid(ERA), days.rem_euclid(ERA));
    let year = (day - day / 1_460 + day / 36_524 - day / 146_096) / 365;
    let day = day - (365 * year + year / 4 - year / 100);
    let month = (5 * day + 2) / 153;
    let of_month = day - (153 * month + 2) / 5 + 1;
    let (month, next) = if month < 10 {
        (month + 3, 0)
    } else {
        (month - 9, 1)
    };
    (era * 400 + year + next, month, of_month)
}

#[cfg(test)]
mod tests {
    use super::*;

    #[test]
    fn moments_are_utc() {
        for (milliseconds, text) in [
            (0, "1970-01-01 00:00:00.000 UTC"),
            (-1, "1969-12-31 23:59:59.999 UTC"),
            (1_700_000_000_000, "2023-11-14 22:13:20.000 UTC"),
            (1_709_164_800_000, "2024-02-29 00:00:00.000 UTC"),
            (951_782_400_000, "2000-02-29 00:00:00.000 UTC"),
            (-2_203_891_200_000, "1900-03-01 00:00:00.000 UTC"),
        ] {
            assert_eq!(moment(milliseconds), text);
        }
        assert!(moment(i64::MAX).starts_with("292278994-08-17 "));
        assert!(moment(i64::MIN).starts_with("-292275055-05-16 "));
    }

    #[test]
    fn names_that_are_unusual_are_quoted() {
        assert_eq!(name("plan-0042"), "plan-0042");
        assert_eq!(name(""), "\"\"");
        assert_eq!(name("a b"), "\"a b\"");
        assert_eq!(plain("a b"), "a b");
        assert_eq!(plain("a\u{1b}b"), "\"a\\u001bb\"");
        assert_eq!(sheet(1), "1 (load sheet)");
        assert_eq!(sheet(-1), "-1");
    }
}
