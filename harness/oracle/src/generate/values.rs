//! The values of a record's fields.

use std::collections::{BTreeMap, BTreeSet};
use std::ops::{Range, RangeInclusive};

use krabka_metadata::{BreakGlassApproval, BrokerEndpoint, NodeId, QuotaEntity};
use uuid::Uuid;
use wire::choices::PROTOCOLS;

use super::Generator;

const TOPICS: [&str; 9] = [
    "p", "q", "room", "room-7", "__room", "_r", "A.b_c-9", "...", "-",
];

/// Names from before 02's rule, which Apply and Restore still take.
const OLD_TOPICS: [&str; 7] = ["é", "𝄞-1", "", "Smith/2", ".", "..", "\u{0}"];

/// Percent of the names that are old ones, where a history has them.
const OLD: u64 = 30;

pub const SCOPES: [&str; 13] = [
    "", "_", "__", "r", "ro", "room", "room-", "room-7", "__room", "p", "é", "𝄞", "\u{0}",
];

const TEXTS: [&str; 8] = ["", "a", "b", "ab", "é", "𝄞", "\u{0}", "User:alice"];

const CONFIG_NAMES: [&str; 6] = [
    "leader.replication.throttled.rate",
    "follower.replication.throttled.rate",
    "replica.alter.log.dirs.io.max.bytes.per.second",
    "k",
    "",
    "é",
];

const CONFIG_VALUES: [&str; 20] = [
    "5",
    "+5",
    "-0",
    "-1",
    "",
    "+",
    "-",
    " 5",
    "5 ",
    "00012",
    "9223372036854775807",
    "9223372036854775808",
    "-9223372036854775808",
    "-9223372036854775809",
    "1e3",
    "0x10",
    "٣",
    "+-1",
    "1_000",
    "5\n",
];

const NODES: [u64; 9] = [1, 2, 3, 4, 1, 2, 0, 1 << 63, u64::MAX];

/// Zeros, infinities, a quiet NaN and signalling ones, a subnormal.
const QUOTAS: [u64; 9] = [
    0,
    1 << 63,
    0x3FF0_0000_0000_0000,
    0x7FF0_0000_0000_0000,
    0xFFF0_0000_0000_0000,
    0x7FF8_0000_0000_0000,
    0x7FF0_0000_0000_0001,
    0xFFF4_0000_DEAD_BEEF,
    1,
];

impl Generator {
    pub(super) fn extreme(&mut self) -> bool {
        self.random.percent(self.knobs.extreme)
    }

    /// A list's length: mostly below 4, sometimes the limit.
    pub(super) fn length(&mut self, limit: usize) -> usize {
        if self.extreme() {
            return limit;
        }
        self.random.below(4)
    }

    fn list<T>(&mut self, limit: usize, draw: impl Fn(&mut Self) -> T) -> Vec<T> {
        let count = self.length(limit);
        (0..count).map(|_| draw(self)).collect()
    }

    pub(super) fn text_of(&mut self, pool: &[&str]) -> String {
        if self.extreme() {
            return self.long_text();
        }
        self.random.pick(pool).to_owned()
    }

    /// A topic's name: lawful, at times the longest such; or an old one.
    pub(super) fn any_topic_name(&mut self) -> String {
        if self.knobs.old_names && self.random.percent(OLD) {
            return self.text_of(&OLD_TOPICS);
        }
        match self.extreme() {
            true => "n".repeat(249),
            false => self.random.pick(&TOPICS).to_owned(),
        }
    }

    /// 255 bytes, or as many with a character of four at the end.
    fn long_text(&mut self) -> String {
        match self.flag() {
            true => "n".repeat(255),
            false => "n".repeat(251) + "𝄞",
        }
    }

    pub(super) fn text(&mut self) -> String {
        self.text_of(&TEXTS)
    }

    pub(super) fn config_name(&mut self) -> String {
        self.text_of(&CONFIG_NAMES)
    }

    pub(super) fn config_value(&mut self) -> String {
        self.text_of(&CONFIG_VALUES)
    }

    pub(super) fn flag(&mut self) -> bool {
        self.random.percent(50)
    }

    /// A value in `percent` of the draws.
    pub(super) fn maybe<T>(
        &mut self,
        percent: u64,
        draw: impl FnOnce(&mut Self) -> T,
    ) -> Option<T> {
        self.random.percent(percent).then(|| draw(self))
    }

    /// One of `few`, or a number at an end of its type's range, or next to one.
    fn number(&mut self, range: RangeInclusive<i64>, few: Range<i64>) -> i64 {
        let (least, most) = range.into_inner();
        if self.extreme() {
            return self.random.pick(&[least, least + 1, most, most - 1]);
        }
        few.start + self.random.below((few.end - few.start) as usize) as i64
    }

    pub(super) fn i64(&mut self) -> i64 {
        self.number(i64::MIN..=i64::MAX, -2..6)
    }

    pub(super) fn i32(&mut self) -> i32 {
        self.number(i32::MIN.into()..=i32::MAX.into(), -1..5) as i32
    }

    pub(super) fn i16(&mut self) -> i16 {
        self.number(i16::MIN.into()..=i16::MAX.into(), -1..5) as i16
    }

    pub(super) fn u16(&mut self) -> u16 {
        if self.extreme() {
            return u16::MAX;
        }
        self.random.below(4) as u16
    }

    /// A partition's number: few, so that partitions meet again.
    pub(super) fn partition_number(&mut self) -> i32 {
        if self.extreme() {
            return self.i32();
        }
        self.random.below(3) as i32
    }

    pub(super) fn node(&mut self) -> NodeId {
        NodeId(self.random.pick(&NODES))
    }

    /// Nodes for a replica list: where one would come twice, another one that
    /// no draw gives stands for it.
    pub(super) fn distinct_nodes(&mut self, count: usize) -> Vec<NodeId> {
        let mut others = (5..).map(NodeId);
        let mut nodes = Vec::new();
        while nodes.len() < count {
            let drawn = self.node();
            let node = match nodes.contains(&drawn) {
                true => others.next().expect("an endless list"),
                false => drawn,
            };
            nodes.push(node);
        }
        nodes
    }

    pub(super) fn nodes(&mut self) -> Vec<NodeId> {
        self.list(64, Self::node)
    }

    /// One of few ids; the first is `MIGRATING`.
    pub(super) fn id(&mut self) -> Uuid {
        let high = self.random.pick(&[0, 0, 0, u64::MAX]);
        Uuid::from_u64_pair(high, self.random.below(4) as u64)
    }

    pub(super) fn ids(&mut self) -> Vec<Uuid> {
        self.list(64, Self::id)
    }

    pub(super) fn signature(&mut self) -> Vec<u8> {
        let count = self.length(512);
        self.random.bytes(count)
    }

    pub(super) fn quota(&mut self) -> f64 {
        let bits = self.random.pick(&QUOTAS);
        f64::from_bits(if self.extreme() {
            self.random.bits()
        } else {
            bits
        })
    }

    /// A map's keys: few from the pool, or 64 of 2 or of 255 bytes.
    fn keys(&mut self) -> Vec<String> {
        if !self.extreme() {
            let count = self.random.below(3);
            return (0..count).map(|_| self.config_name()).collect();
        }
        let width = self.random.pick(&[2, 255]);
        (0..64).map(|n| format!("{n:0width$}")).collect()
    }

    /// Keys at the limit have values at the limit.
    pub(super) fn configs(&mut self) -> BTreeMap<String, String> {
        let keys = self.keys();
        let value = |g: &mut Self, key: &str| match key.len() {
            255 => g.long_text(),
            _ => g.config_value(),
        };
        keys.into_iter()
            .map(|key| (key.clone(), value(self, &key)))
            .collect()
    }

    pub(super) fn features(&mut self) -> BTreeMap<String, (i16, i16)> {
        let keys = self.keys();
        keys.into_iter()
            .map(|key| (key, (self.i16(), self.i16())))
            .collect()
    }

    pub(super) fn endpoints(&mut self) -> Vec<BrokerEndpoint> {
        self.list(16, Self::endpoint)
    }

    fn endpoint(&mut self) -> BrokerEndpoint {
        BrokerEndpoint {
            name: self.text(),
            host: self.text(),
            port: self.u16(),
            protocol: self.random.pick(&PROTOCOLS),
        }
    }

    /// Entities that name each type once: where one would come twice, another
    /// one that no draw gives stands for it.
    pub(super) fn entities(&mut self) -> Vec<QuotaEntity> {
        let mut others = (0..).map(|number| format!("type {number}"));
        let mut types = BTreeSet::new();
        let mut entities = self.list(8, Self::entity);
        for entity in &mut entities {
            while !types.insert(entity.entity_type.clone()) {
                entity.entity_type = others.next().expect("an endless list");
            }
        }
        entities
    }

    fn entity(&mut self) -> QuotaEntity {
        QuotaEntity {
            entity_type: self.text_of(&["user", "client-id", "ip", ""]),
            entity_name: self.maybe(65, |g| g.text_of(&["a", "b", ""])),
        }
    }

    pub(super) fn approvals(&mut self, count: usize) -> Vec<BreakGlassApproval> {
        (0..count).map(|_| self.approval()).collect()
    }

    fn approval(&mut self) -> BreakGlassApproval {
        BreakGlassApproval {
            principal: self.text(),
            approved_at_ms: self.i64(),
            key_id: self.text(),
            signature: self.signature(),
        }
    }
}
