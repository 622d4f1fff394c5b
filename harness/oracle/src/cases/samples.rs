//! The records that cases are made of.

use krabka_metadata::{MetadataRecord, PatternType};

use crate::facts::build::{
    broker, broker_config, controller, elr, feature_level, freeze, group_config, id, kraft_version,
    metrics_config, offset_advance, partition_record, producer_ids, proposal, quota, recovering,
    topic, topic_config,
};

/// Something of each kind that is stored, and empty groups. Topics "q" and "r"
/// share an id, which names "r".
pub fn all_kinds() -> Vec<MetadataRecord> {
    vec![
        MetadataRecord::V1BrokerRegistration(broker(1, 7)),
        MetadataRecord::V1ControllerRegistration(controller(1, 1)),
        broker_config(1, "a", Some("x")),
        broker_config(1, "b", Some("")),
        topic("p", 1, 0, 1),
        topic("q", 2, 0, 1),
        topic("r", 2, 0, 1),
        partition_record("p", 0, &[1]),
        partition_record("p", 1, &[1, 2]),
        partition_record("q", 0, &[1]),
        offset_advance("p", 0, 5),
        elr("p", 0, &[1], &[2]),
        recovering("p", 0),
        topic_config("p", &[("k", "v")]),
        quota(&[("user", Some("a"))], "rate", Some(1.5)),
        quota(&[("user", Some("b"))], "rate", Some(2.5)),
        producer_ids(1, 7, 1000),
        metrics_config("m", &[("k", "v")]),
        group_config("g", &[("k", "v")]),
        freeze("p", PatternType::Literal),
        freeze("q", PatternType::Prefixed),
        MetadataRecord::V1BreakGlassProposal(proposal(id(9))),
        feature_level("a", 1),
        feature_level("b", 2),
        broker_config(3, "a", None),
        broker_config(4, "a", None),
        quota(&[("ip", None)], "rate", None),
        quota(&[("ip", None), ("user", None)], "rate", None),
        kraft_version(1),
    ]
}
