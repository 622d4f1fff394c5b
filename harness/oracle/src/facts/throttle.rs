//! How the reference reads a throttle, and where it looks for one.

use krabka_metadata::{DEFAULT_BROKER_CONFIG_NODE_ID, MetadataImage, NodeId, ThrottleKind};

use super::Facts;
use super::build::{applied, broker_config, shown};

const LEADER: &str = "leader.replication.throttled.rate";
const FOLLOWER: &str = "follower.replication.throttled.rate";
const ALTER_LOG_DIRS: &str = "replica.alter.log.dirs.io.max.bytes.per.second";
const DEFAULT: u64 = DEFAULT_BROKER_CONFIG_NODE_ID.0;

const STRINGS: [&str; 44] = [
    "+5",
    "-0",
    "-1",
    "0",
    "5",
    "",
    "+",
    "-",
    " 5",
    "5 ",
    "5\n",
    "\t5",
    "5\u{0}",
    "+0",
    "-00",
    "007",
    "00012",
    "+0007",
    "9223372036854775807",
    "+9223372036854775807",
    "09223372036854775807",
    "9223372036854775808",
    "-9223372036854775808",
    "-9223372036854775809",
    "18446744073709551616",
    "99999999999999999999999999",
    "00000000000000000000000000000007",
    "1e3",
    "1.0",
    "0x10",
    "1_000",
    "1,000",
    "+-1",
    "-+1",
    "--1",
    "++1",
    "5-",
    "5+",
    "٣",
    "５",
    "−1",
    "a",
    "NaN",
    "inf",
];

pub fn say(facts: &mut Facts) {
    for string in STRINGS {
        let image = applied(&[broker_config(1, LEADER, Some(string))]);
        facts.say(format!("throttle {string:?}"), rate(&image, 1));
    }
    defaults(facts);
    keys(facts);
}

fn rate_of(image: &MetadataImage, node: u64, kind: ThrottleKind) -> String {
    let rate = image.broker_throttle_rate(NodeId(node), kind);
    shown(rate.map(|rate| rate.bytes_per_sec))
}

fn rate(image: &MetadataImage, node: u64) -> String {
    rate_of(image, node, ThrottleKind::Leader)
}

fn defaults(facts: &mut Facts) {
    let with_default = |own: &str| {
        applied(&[
            broker_config(1, LEADER, Some(own)),
            broker_config(DEFAULT, LEADER, Some("9")),
        ])
    };
    for own in ["5", "x", "-1"] {
        let what = format!("throttle of a broker's own {own:?} with a default of 9");
        facts.say(what, rate(&with_default(own), 1));
    }
    let image = with_default("5");
    facts.say(
        "throttle of a broker without configs, default 9",
        rate(&image, 2),
    );
    facts.say("throttle of the default node itself", rate(&image, DEFAULT));
    let removed = applied(&[
        broker_config(1, LEADER, None),
        broker_config(DEFAULT, LEADER, Some("9")),
    ]);
    facts.say(
        "throttle of an empty config group, default 9",
        rate(&removed, 1),
    );
    facts.say("throttle of a fresh image", rate(&applied(&[]), 1));
}

fn keys(facts: &mut Facts) {
    let image = applied(&[
        broker_config(1, LEADER, Some("1")),
        broker_config(1, FOLLOWER, Some("2")),
        broker_config(DEFAULT, ALTER_LOG_DIRS, Some("3")),
    ]);
    let kinds = [
        ("leader", ThrottleKind::Leader),
        ("follower", ThrottleKind::Follower),
        (
            "alter log dirs, from the default",
            ThrottleKind::AlterLogDirs,
        ),
    ];
    for (name, kind) in kinds {
        facts.say(format!("throttle of kind {name}"), rate_of(&image, 1, kind));
    }
}
