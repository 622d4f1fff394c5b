//! Drawn records of the four kinds: Kafka's bytes in any form that reads alike,
//! and ours. Some have a fault in one of their parts.

use wire::kafka::{FRAME_VERSION, LONGEST_VARINT, MESSAGE_VERSION, MESSAGES, Message, varint};
use wire::{Random, field};

/// One part in so many has a fault.
const FAULTS: usize = 80;
/// A fifth byte that is the last of a varint, and such as are none.
const FIFTHS: [u8; 5] = [15, 16, 0x7f, 0x80, 0xff];
/// Numbers that are no key of the four, some of them with the lowest bits of one.
const OTHER_KEYS: [u32; 12] = [0, 3, 4, 11, 13, 14, 16, 29, 127, 129, 140, u32::MAX];
/// Lengths of names, about those where a varint has one byte more and about the
/// longest; and of those that are too long.
const LENGTHS: [usize; 12] = [0, 1, 2, 6, 16, 40, 125, 126, 127, 128, 254, 255];
const TOO_LONG: [usize; 3] = [256, 257, 300];
const TEXTS: [&str; 6] = ["n", "orders", "é", "𝄞", "\u{0}", "metadata.version"];
/// Numbers of brokers that Kafka has, and such as it has not.
const BROKERS: [u32; 5] = [0, 1, 7, 1 << 24, (1 << 31) - 1];
const OTHER_BROKERS: [u64; 6] = [
    1 << 31,
    (1 << 31) + 1,
    (1 << 32) - 1,
    1 << 32,
    1 << 63,
    u64::MAX,
];
const TAGS: [u32; 7] = [0, 1, 2, 127, 128, 1 << 31, u32::MAX];
const SIZES: [usize; 7] = [0, 0, 1, 3, 127, 128, 200];

/// Kafka's bytes of a drawn record.
pub fn frame(random: &mut Random) -> Vec<u8> {
    let message = random.pick(&MESSAGES);
    let mut frame = Frame {
        is_plain: random.percent(50),
        random,
        bytes: Vec::new(),
    };
    frame.number(FRAME_VERSION, &[0, 2, 129]);
    frame.number(message.key(), &OTHER_KEYS);
    frame.number(MESSAGE_VERSION, &[1, 2, 128]);
    frame.fields(message);
    frame.tagged();
    frame.bytes
}

/// A record under way.
struct Frame<'a> {
    random: &'a mut Random,
    bytes: Vec<u8>,
    /// Whether it has the shortest varints and no tagged fields.
    is_plain: bool,
}

impl Frame<'_> {
    /// A varint of this number, at times of another one, and at times with any
    /// fifth byte.
    fn number(&mut self, number: u32, others: &[u32]) {
        let number = match is_faulty(self.random) {
            true => self.random.pick(others),
            false => number,
        };
        let least = match self.is_plain {
            true => 1,
            false => self.random.pick(&[1, 1, 1, 1, 2, 3, 4, 5]),
        };
        let bytes = match is_faulty(self.random) {
            true => with_fifth(number, self.random.pick(&FIFTHS)),
            false => varint(number, least),
        };
        self.bytes.extend(bytes);
    }

    fn fields(&mut self, message: Message) {
        match message {
            Message::UnregisterBroker | Message::ProducerIds => self.broker(),
            Message::Topic | Message::FeatureLevel => self.name(),
        }
        let width = match message {
            Message::UnregisterBroker => 8,
            Message::Topic | Message::ProducerIds => 16,
            Message::FeatureLevel => 2,
        };
        let bytes = self.random.bytes(width);
        self.bytes.extend(bytes);
    }

    /// Its length is at times null's, one too few or too many, or goes past the
    /// input, below 255 and above.
    fn name(&mut self) {
        let name = name(self.random);
        let length = name.len() as u32 + 1;
        let below = length.saturating_sub(1);
        let others = [0, below, length + 1, 250, 256, 257, 70_000, u32::MAX];
        self.number(length, &others);
        self.bytes.extend(name);
    }

    /// At times it is negative.
    fn broker(&mut self) {
        let number = kafkas_broker(self.random);
        let number = match is_faulty(self.random) {
            true => number | 1 << 31,
            false => number,
        };
        self.bytes.extend(number.to_be_bytes());
    }

    /// Up to three, of any tags, also one twice and descending; counts and sizes
    /// are at times others.
    fn tagged(&mut self) {
        let count = match self.is_plain {
            true => 0,
            false => self.random.below(4) as u32,
        };
        self.number(count, &[count + 1, count + 9, 200, 1 << 31, u32::MAX]);
        for _ in 0..count {
            let tag = self.random.pick(&TAGS);
            self.number(tag, &TAGS);
            let size = self.random.pick(&SIZES);
            let number = size as u32;
            self.number(number, &[number + 1, number / 2, 1_000, u32::MAX]);
            let bytes = self.random.bytes(size);
            self.bytes.extend(bytes);
        }
    }
}

/// A varint of five bytes, the last of them this one.
pub fn with_fifth(number: u32, fifth: u8) -> Vec<u8> {
    let mut bytes = varint(number, LONGEST_VARINT);
    bytes[LONGEST_VARINT - 1] = fifth;
    bytes
}

fn is_faulty(random: &mut Random) -> bool {
    random.below(FAULTS) == 0
}

/// A name, at times too long or no text.
fn name(random: &mut Random) -> Vec<u8> {
    let lengths: &[usize] = match is_faulty(random) {
        true => &TOO_LONG,
        false => &LENGTHS,
    };
    let (length, text) = (random.pick(lengths), random.pick(&TEXTS));
    let mut name = text.repeat(length.div_ceil(text.len())).into_bytes();
    while name.len() > length {
        name.truncate(name.len() - text.len());
    }
    if is_faulty(random) {
        name.push(0xff);
    }
    name
}

/// Our bytes of a drawn record.
pub fn record(random: &mut Random) -> Vec<u8> {
    let message = random.pick(&MESSAGES);
    let first = match message {
        Message::UnregisterBroker | Message::ProducerIds => broker(random),
        Message::Topic | Message::FeatureLevel => name(random),
    };
    let widths: &[usize] = match message {
        Message::UnregisterBroker => &[8],
        Message::Topic => &[16, 4, 2],
        Message::FeatureLevel => &[2],
        Message::ProducerIds => &[8, 8],
    };
    let mut fields = field(1, &first);
    for (tag, width) in (2..).zip(widths) {
        fields.extend(field(tag, &random.bytes(*width)));
    }
    field(message.kind(), &fields)
}

/// The number of a broker, a third of them beyond Kafka's.
fn broker(random: &mut Random) -> Vec<u8> {
    let number = match random.below(3) {
        0 => random.pick(&OTHER_BROKERS),
        _ => kafkas_broker(random).into(),
    };
    number.to_be_bytes().to_vec()
}

fn kafkas_broker(random: &mut Random) -> u32 {
    match random.below(2) {
        0 => random.pick(&BROKERS),
        _ => random.bits() as u32 >> 1,
    }
}
