//! The lines of the two files.

use std::collections::BTreeSet;

use krabka_metadata::{MetadataRecord, NodeId};
use wire::choices::THROTTLE_KINDS;
use wire::{
    HEADER, NO_RECORD, OVER_A_LIMIT, PAST_THE_END, REPEATED, Random, WRONG_FIELD, damaged, encoded,
    encoded_all, encoded_offset,
};

use super::plan::Plan;
use super::run::{Run, written};
use super::{
    CUT, DOWNGRADE, FREEZE, LOG_OFFSET, OPEN, PARTITION, RESTORE, SNAPSHOT, STEP, STEP_ALWAYS,
    THROTTLE,
};
use crate::downgrade::downgrade;
use crate::facts::build::{broker_config, feature_level, producer_ids};
use crate::image::FIXED_ROOM;
use crate::snapshot::starting;
use crate::stored::Stored;
use crate::verdict::{
    ACCEPTED, MISPLACED_OFFSET, NO_IMAGE, NO_OFFSET, NO_ROOM, NOT_LATER, UNLAWFUL_NAME,
};

const LEADER: &str = "leader.replication.throttled.rate";
const LEVELS: [i16; 4] = [-1, 16, 29, 30];
/// After how many steps questions come.
const ASKED_AFTER: usize = 9;
/// After how many steps the record comes again, at a log offset that is not later.
const AGAIN_AFTER: usize = 8;

/// The two files, and what has been in them.
pub struct Lines {
    pub stored: Stored,
    place: usize,
    verdicts: BTreeSet<u8>,
    numbers: BTreeSet<u8>,
    kinds: BTreeSet<u8>,
    restored: BTreeSet<u8>,
}

impl Lines {
    pub fn new(head: &str) -> Self {
        Self {
            stored: Stored::new(head),
            place: 0,
            verdicts: BTreeSet::new(),
            numbers: BTreeSet::new(),
            kinds: BTreeSet::new(),
            restored: BTreeSet::new(),
        }
    }

    pub fn history(&mut self, plan: &Plan, capacity: usize, inputs: &[Vec<u8>]) {
        let (number, place) = (plan.number, self.place + 1);
        self.stored.title(&format!(
            "history {number} at {capacity}, from place {place}"
        ));
        let mut run = self.open(capacity);
        for (place, input) in (1..).zip(inputs) {
            self.step(&mut run, plan.operation(), place as i64 - 1, input);
            if place % AGAIN_AFTER == 0 {
                self.again(&mut run, input);
            }
            if run.is_image() && place % plan.cut_after() == 0 {
                self.cut(&mut run);
            }
            if place % ASKED_AFTER == 0 {
                self.ask(&run);
            }
        }
        self.ask(&run);
        self.list(&run);
        self.restores(&mut run, plan, inputs);
    }

    /// The record once more, at the log offset that the image has, or below.
    fn again(&mut self, run: &mut Run, input: &[u8]) {
        let offsets = [run.offset, run.offset - 1, NO_RECORD, i64::MIN];
        let offset = offsets[self.place % offsets.len()];
        self.step(run, STEP_ALWAYS, offset, input);
    }

    /// "capacity 127 is 1, 65,537 is 1; throttle "+5" is 5, "-0" is 0, "-1" none."
    /// By 02 the least capacity is 144.
    pub fn checked_by_hand(&mut self) {
        self.stored.title("checked by hand: no capacities");
        for capacity in [127, 143, 65_537] {
            let run = self.open(capacity);
            assert!(!run.is_image());
        }
        self.throttles();
        self.offsets();
        self.starts();
    }

    /// M8, 02's edge: at 155 there is no room for a level, at 156 there is. M4 at
    /// offset 0; then log offsets at both ends of i64, and records that Read
    /// refuses, which are not asked for theirs.
    fn offsets(&mut self) {
        self.stored.title("checked by hand: log offsets");
        let level = encoded(&feature_level("a", 1));
        for (capacity, number) in [(155, NO_ROOM), (156, ACCEPTED)] {
            let mut run = self.open(capacity);
            let said = self.step(&mut run, STEP, 0, &level);
            assert_eq!(said, (ACCEPTED, Some(number)));
            self.log_offset(&run);
        }
        let mut run = self.open(FIXED_ROOM * 4);
        let without_effect = encoded(&producer_ids(1, 0, 0));
        let known = [
            (i64::MIN, NOT_LATER, &level[..]),
            (-2, NOT_LATER, &level),
            (NO_RECORD, NOT_LATER, &level),
            (NO_RECORD, PAST_THE_END, &level[..5]),
            (0, ACCEPTED, &without_effect),
            (0, NOT_LATER, &level),
            (i64::MAX, ACCEPTED, &level),
            (i64::MAX, NOT_LATER, &level),
            (i64::MAX, PAST_THE_END, &level[..5]),
            (0, NOT_LATER, &without_effect),
        ];
        for (offset, number, input) in known {
            let (_, said) = self.step(&mut run, STEP_ALWAYS, offset, input);
            assert_eq!(said, Some(number));
            self.log_offset(&run);
        }
        self.cut(&mut run);
        self.log_offset(&run);
    }

    /// Restore by where the log offset stands in the bytes.
    fn starts(&mut self) {
        self.stored.title("checked by hand: a snapshot's start");
        let mut run = self.open(FIXED_ROOM * 4);
        let level = encoded(&feature_level("a", 1));
        let offset = encoded_offset(7);
        let late = [&level[..], &offset].concat();
        let known = [
            (Vec::new(), Some((MISPLACED_OFFSET, 0))),
            (offset.clone(), None),
            (offset[..13].to_vec(), Some((PAST_THE_END, 0))),
            (encoded_offset(-2), Some((WRONG_FIELD, 0))),
            (encoded_offset(NO_RECORD), None),
            (encoded_offset(i64::MAX), None),
            (level.clone(), Some((MISPLACED_OFFSET, 0))),
            (late.clone(), Some((MISPLACED_OFFSET, 0))),
            (starting(5, &level), None),
            (starting(5, &offset), Some((MISPLACED_OFFSET, 14))),
            (starting(5, &late), Some((MISPLACED_OFFSET, 26))),
            (starting(5, &encoded_offset(-2)), Some((WRONG_FIELD, 14))),
            (starting(5, &late[..HEADER]), Some((PAST_THE_END, 14))),
            (starting(-2, &level), Some((WRONG_FIELD, 0))),
        ];
        for (input, stopped) in known {
            assert_eq!(self.restore(&mut run, &input), stopped);
            self.log_offset(&run);
        }
    }

    fn throttles(&mut self) {
        self.stored.title("checked by hand: throttles");
        let mut run = self.open(FIXED_ROOM * 4);
        let known = [("+5", Some(5)), ("-0", Some(0)), ("-1", None)];
        for (offset, (value, rate)) in (0..).zip(known) {
            let record = encoded(&broker_config(1, LEADER, Some(value)));
            self.step(&mut run, STEP, offset, &record);
            let node = NodeId(1);
            let said = run.image.broker_throttle_rate(node, THROTTLE_KINDS[0]);
            assert_eq!(said.map(|said| said.bytes_per_sec), rate);
            self.throttle(&run, node, 0);
        }
    }

    fn open(&mut self, capacity: usize) -> Run {
        let run = Run::at(capacity);
        let number = if run.is_image() { ACCEPTED } else { NO_IMAGE };
        let answer = format!(" {number}{}", run.answer());
        self.push(OPEN, &capacity.to_be_bytes()[5..], &answer);
        run
    }

    fn cut(&mut self, run: &mut Run) {
        let snapshot = run.snapshot();
        run.cut();
        let answer = format!("{} 0{}", written(&snapshot), run.answer());
        self.push(CUT, &[], &answer);
    }

    /// The questions of an offline laptop: freezes, throttles and partitions;
    /// and support's, how far the image got.
    fn ask(&mut self, run: &Run) {
        self.log_offset(run);
        let mut names: BTreeSet<String> = run.image.topics().map(|t| t.name.clone()).collect();
        names.extend(run.image.topic_freezes().map(|f| format!("{}-7", f.scope)));
        names.extend(run.image.topic_freezes().map(|f| f.scope.clone()));
        let names: Vec<String> = names.into_iter().filter(|n| n.len() <= 255).collect();
        let first = self.place % (names.len() + 1);
        for name in names.iter().cycle().skip(first).take(names.len().min(4)) {
            let freeze = run.image.topic_freeze(name).cloned();
            let freeze = freeze.map(MetadataRecord::V1TopicFreeze);
            self.found(run, FREEZE, name.as_bytes(), freeze);
            let number = (self.place % 3) as i32;
            let part = run.image.partition(name, number).cloned();
            let rest = [&number.to_be_bytes()[..], name.as_bytes()].concat();
            self.found(run, PARTITION, &rest, part.map(MetadataRecord::V1Partition));
        }
        for node in [0, 1, 2, u64::MAX] {
            self.throttle(run, NodeId(node), (self.place % 4) as u8);
        }
    }

    fn found(&mut self, run: &Run, operation: u8, rest: &[u8], record: Option<MetadataRecord>) {
        let record: Vec<MetadataRecord> = record.into_iter().collect();
        let answer = match run.is_image() {
            true => written(&encoded_all(&record)),
            false => format!(" {NO_IMAGE}"),
        };
        self.push(operation, rest, &answer);
    }

    fn log_offset(&mut self, run: &Run) {
        let answer = match run.is_image() {
            true => format!(" 0 {}", run.offset.cast_unsigned()),
            false => format!(" {NO_IMAGE}"),
        };
        self.push(LOG_OFFSET, &[], &answer);
    }

    fn throttle(&mut self, run: &Run, node: NodeId, kind: u8) {
        let rate = match THROTTLE_KINDS.get(usize::from(kind)) {
            _ if !run.is_image() => format!(" {NO_IMAGE}"),
            None => format!(" {WRONG_FIELD}"),
            Some(kind) => match run.image.broker_throttle_rate(node, *kind) {
                Some(rate) => format!(" 0 {}", rate.bytes_per_sec),
                None => " 0".to_owned(),
            },
        };
        let rest = [&[kind][..], &node.0.to_be_bytes()].concat();
        self.push(THROTTLE, &rest, &rate);
    }

    /// The snapshot, and the listings for some levels.
    fn list(&mut self, run: &Run) {
        if !run.is_image() {
            return;
        }
        self.push(SNAPSHOT, &[], &written(&run.snapshot()));
        for level in LEVELS {
            let answer = written(&encoded_all(&downgrade(&run.image, level)));
            self.push(DOWNGRADE, &level.to_be_bytes(), &answer);
        }
    }

    /// Of some histories: Restore of the inputs behind a log offset, and of the snapshot, cut, with damage, and without its offset.
    fn restores(&mut self, run: &mut Run, plan: &Plan, inputs: &[Vec<u8>]) {
        if !plan.number.is_multiple_of(4) {
            return;
        }
        let snapshot = run.snapshot();
        let mut random = Random::beside(plan.number);
        let cut = snapshot[..snapshot.len() * 2 / 3].to_vec();
        let any = damaged(&mut random, &snapshot);
        let inputs = starting(plan.number as i64, &inputs.concat());
        let former = snapshot[encoded_offset(0).len()..].to_vec();
        for input in [inputs, cut, any, former] {
            self.restore(run, &input);
        }
    }

    /// The first refusal, with its place.
    fn restore(&mut self, run: &mut Run, input: &[u8]) -> Option<(u8, usize)> {
        if !run.is_image() {
            self.push(RESTORE, input, &format!(" {NO_IMAGE}{}", run.answer()));
            return None;
        }
        let stopped = run.restore(input);
        let said = match stopped {
            Some((number, place)) => format!(" {number} {place}"),
            None => format!(" {ACCEPTED}"),
        };
        self.push(RESTORE, input, &format!("{said}{}", run.answer()));
        self.restored
            .insert(stopped.map_or(ACCEPTED, |(number, _)| number));
        stopped
    }

    fn step(
        &mut self,
        run: &mut Run,
        operation: u8,
        offset: i64,
        input: &[u8],
    ) -> (u8, Option<u8>) {
        let (verdict, number) = run.step(operation, offset, input);
        let mut answer = format!(" {verdict}");
        if let Some(number) = number {
            answer += &format!(" {number}{}", run.answer());
        }
        let line = [&offset.to_be_bytes()[..], input].concat();
        self.push(operation, &line, &answer);
        self.verdicts.insert(verdict);
        self.numbers.extend(number);
        if (verdict, number) == (ACCEPTED, Some(ACCEPTED)) {
            self.kinds.insert(input[0]);
        }
        (verdict, number)
    }

    fn push(&mut self, operation: u8, rest: &[u8], answer: &str) {
        self.place += 1;
        let answer = format!("{}{answer}", self.place);
        self.stored.push(operation, &[rest], &answer);
    }

    /// Every kind has been accepted and applied, and every number has been an answer.
    pub fn check(&self) {
        assert_eq!(self.kinds, (1..=25).collect());
        let verdicts = (0..=16).chain([REPEATED, UNLAWFUL_NAME]);
        assert_eq!(self.verdicts, verdicts.collect());
        let numbers = (ACCEPTED..=OVER_A_LIMIT).chain([NO_OFFSET, NO_ROOM, REPEATED, NOT_LATER]);
        assert_eq!(self.numbers, numbers.collect());
        let restored = [ACCEPTED, PAST_THE_END, WRONG_FIELD, MISPLACED_OFFSET];
        assert!(self.restored.is_superset(&restored.into()));
    }
}
