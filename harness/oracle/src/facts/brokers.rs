//! Broker registrations, their changes, and broker config groups.

use krabka_metadata::{
    BrokerRegistrationChangeRecord, BrokerRegistrationRecord, FencingChange, MetadataImage,
    MetadataRecord, NodeId, UnregisterBrokerRecord, UnregisterControllerRecord,
};
use uuid::Uuid;

use super::Facts;
use super::build::{applied, broker, broker_config, cut, id, numbers, shown};
use crate::observe::{Witness, observe};
use crate::verdict::verdict;

pub fn say(facts: &mut Facts) {
    log_dirs(facts);
    flags(facts);
    other_epochs(facts);
    unregistered(facts);
    empty_groups(facts);
    downgrade(facts);
}

/// Broker 1 at epoch 4 with log dir 5 and cordoned dir 6.
fn registered() -> BrokerRegistrationRecord {
    BrokerRegistrationRecord {
        log_dirs: vec![id(5)],
        cordoned_log_dirs: Some(vec![id(6)]),
        ..broker(1, 4)
    }
}

fn change(epoch: i64) -> BrokerRegistrationChangeRecord {
    BrokerRegistrationChangeRecord::no_change(NodeId(1), epoch)
}

fn changed(
    registered: BrokerRegistrationRecord,
    change: BrokerRegistrationChangeRecord,
) -> BrokerRegistrationRecord {
    let image = applied(&[
        MetadataRecord::V1BrokerRegistration(registered),
        MetadataRecord::V1BrokerRegistrationChange(change),
    ]);
    image.broker(NodeId(1)).expect("it is stored").clone()
}

fn shown_dirs(dirs: &Option<Vec<Uuid>>) -> String {
    shown(dirs.as_deref().map(numbers))
}

fn log_dirs(facts: &mut Facts) {
    for dirs in [vec![], vec![id(7)]] {
        let what = format!("log dirs [5] after a change to {}", numbers(&dirs));
        let change = BrokerRegistrationChangeRecord {
            log_dirs: dirs,
            ..change(4)
        };
        facts.say(what, numbers(&changed(registered(), change).log_dirs));
    }
    for dirs in [None, Some(vec![]), Some(vec![id(7)])] {
        let what = format!("cordoned dirs [6] after a change to {}", shown_dirs(&dirs));
        let change = BrokerRegistrationChangeRecord {
            cordoned_log_dirs: dirs,
            ..change(4)
        };
        let after = changed(registered(), change).cordoned_log_dirs;
        facts.say(what, shown_dirs(&after));
    }
}

fn flags(facts: &mut Facts) {
    for before in [false, true] {
        let registered = BrokerRegistrationRecord {
            fenced: before,
            in_controlled_shutdown: before,
            ..registered()
        };
        for fenced in [
            FencingChange::Unfence,
            FencingChange::None,
            FencingChange::Fence,
        ] {
            let change = BrokerRegistrationChangeRecord {
                fenced,
                ..change(4)
            };
            let after = changed(registered.clone(), change).fenced;
            facts.say(format!("fenced {before} after {fenced:?}"), after);
        }
        for shutdown in [false, true] {
            let change = BrokerRegistrationChangeRecord {
                in_controlled_shutdown: shutdown,
                ..change(4)
            };
            let after = changed(registered.clone(), change).in_controlled_shutdown;
            facts.say(format!("shutdown {before} after {shutdown}"), after);
        }
    }
}

fn other_epochs(facts: &mut Facts) {
    let image = applied(&[MetadataRecord::V1BrokerRegistration(registered())]);
    for epoch in [4, 5] {
        let record = BrokerRegistrationChangeRecord {
            fenced: FencingChange::Fence,
            ..change(epoch)
        };
        let fenced = changed(registered(), record.clone()).fenced;
        facts.say(format!("fenced by a change at epoch {epoch} of 4"), fenced);
        let record = MetadataRecord::V1BrokerRegistrationChange(record);
        facts.say(
            format!("validate a change at epoch {epoch} of 4"),
            verdict(&image, &record),
        );
    }
}

fn unregistered(facts: &mut Facts) {
    let mut image = applied(&[
        MetadataRecord::V1BrokerRegistration(registered()),
        broker_config(1, "k", Some("v")),
    ]);
    for broker_epoch in [5, 4, 4] {
        let record = MetadataRecord::V1UnregisterBroker(UnregisterBrokerRecord {
            node_id: NodeId(1),
            broker_epoch,
        });
        let what = format!("unregistration at epoch {broker_epoch} of 4");
        facts.say(format!("validate {what}"), verdict(&image, &record));
        image.apply(&record);
        let stored = image.broker(NodeId(1)).is_some();
        facts.say(format!("broker stored after {what}"), stored);
    }
    let configs = image.broker_config(NodeId(1)).map(|configs| configs.len());
    facts.say("an unregistered broker's configs", shown(configs));
    let controller =
        MetadataRecord::V1UnregisterController(UnregisterControllerRecord { node_id: NodeId(1) });
    facts.say(
        "validate unregistration of an unknown controller",
        verdict(&image, &controller),
    );
}

fn groups(image: &MetadataImage) -> String {
    let mut witness = Witness::default();
    witness.see(&broker_config(1, "k", None));
    format!("{:?}", observe(image, &witness).empty_brokers)
}

fn empty_groups(facts: &mut Facts) {
    facts.say("empty groups of fresh", groups(&applied(&[])));
    let unknown = applied(&[broker_config(1, "k", None)]);
    facts.say(
        "empty groups after removing from an unknown node",
        groups(&unknown),
    );
    let last = applied(&[
        broker_config(1, "k", Some("v")),
        broker_config(1, "k", None),
    ]);
    facts.say("empty groups after removing the last", groups(&last));
    facts.say("empty groups restored", groups(&cut(&last)));
}

fn downgrade(facts: &mut Facts) {
    let empty = BrokerRegistrationRecord {
        cordoned_log_dirs: Some(vec![]),
        ..broker(2, 0)
    };
    let image = applied(&[
        MetadataRecord::V1BrokerRegistration(registered()),
        MetadataRecord::V1BrokerRegistration(empty),
        MetadataRecord::V1BrokerRegistration(broker(3, 0)),
    ]);
    for level in [16, 17, 29, 30] {
        facts.say(
            format!("brokers that a downgrade to {level} changes"),
            projected(&image, level),
        );
    }
}

fn projected(image: &MetadataImage, level: i16) -> String {
    let mut brokers: Vec<String> = image
        .metadata_version_downgrade_records(level)
        .iter()
        .filter_map(|record| match record {
            MetadataRecord::V1BrokerRegistration(broker) => Some(broker),
            _ => None,
        })
        .map(|broker| {
            let cordoned = shown_dirs(&broker.cordoned_log_dirs);
            format!(
                "{} to {} and {cordoned}",
                broker.node_id.0,
                numbers(&broker.log_dirs)
            )
        })
        .collect();
    brokers.sort();
    format!("[{}]", brokers.join(", "))
}
