//! Kafka's own record bytes, by the table of docs/FORMAT.md: KIP-631's frame,
//! version 1, around a message of Kafka's published schemas, version 0. Four
//! messages have a record of ours.

use crate::read::{
    self, HEADER, PAST_THE_END, UNKNOWN_KIND, WRONG_FIELD, check_string, well_formed,
};
use crate::run::Run;

/// A number of ours that Kafka's field can't hold.
pub const NOT_IN_KAFKA: u8 = 27;

pub const FRAME_VERSION: u32 = 1;
pub const MESSAGE_VERSION: u32 = 0;

/// The most bytes of a varint; the last of so many has four bits.
pub const LONGEST_VARINT: usize = 5;
const FOUR_BITS: u8 = 15;
/// The most bytes of a name.
const LONGEST_NAME: usize = 255;

/// Kafka's messages that have a record of ours.
#[derive(Debug, Clone, Copy, PartialEq, Eq)]
pub enum Message {
    UnregisterBroker,
    Topic,
    FeatureLevel,
    ProducerIds,
}

use Message::*;

pub const MESSAGES: [Message; 4] = [UnregisterBroker, Topic, FeatureLevel, ProducerIds];

impl Message {
    /// Kafka's number of it.
    pub fn key(self) -> u32 {
        match self {
            UnregisterBroker => 1,
            Topic => 2,
            FeatureLevel => 12,
            ProducerIds => 15,
        }
    }

    /// Ours.
    pub fn kind(self) -> u8 {
        match self {
            UnregisterBroker => 9,
            Topic => 1,
            FeatureLevel => 11,
            ProducerIds => 8,
        }
    }

    fn of_key(key: u32) -> Option<Self> {
        MESSAGES.into_iter().find(|message| message.key() == key)
    }

    fn of_kind(kind: u8) -> Option<Self> {
        MESSAGES.into_iter().find(|message| message.kind() == kind)
    }

    /// Our record from the message's fields, which stand in the order of our
    /// tags. A topic has no count and no replication factor there.
    fn read(self, parts: &mut Parts) -> Result<Vec<u8>, u8> {
        let kind = self.kind();
        Ok(match self {
            UnregisterBroker => record(kind, &[&parts.broker()?, parts.bytes(8)?]),
            Topic => record(kind, &[parts.name()?, parts.bytes(16)?, &[0; 4], &[0; 2]]),
            FeatureLevel => record(kind, &[parts.name()?, parts.bytes(2)?]),
            ProducerIds => record(kind, &[&parts.broker()?, parts.bytes(8)?, parts.bytes(8)?]),
        })
    }

    /// The message's fields from the values of our record's.
    fn write<'a>(
        self,
        out: &mut Vec<u8>,
        mut values: impl Iterator<Item = &'a [u8]>,
    ) -> Result<(), u8> {
        let mut value = || values.next().expect("a record has all of its fields");
        match self {
            UnregisterBroker | ProducerIds => put_broker(out, value())?,
            Topic | FeatureLevel => put_name(out, value()),
        }
        out.extend(value());
        if self == ProducerIds {
            out.extend(value());
        }
        Ok(())
    }
}

/// Reads Kafka's record at the start of the input: ours, and the bytes that were
/// used; or the first refusal before the one for the output. Bytes after the
/// record are not looked at.
pub fn read(input: &[u8]) -> Result<(Vec<u8>, usize), u8> {
    let (record, parts) = parsed(input)?;
    Ok((record, input.len() - parts.rest.len()))
}

/// Whether the input begins with Kafka's record in the form that is written:
/// "with shortest varints and no tagged fields".
pub fn is_plain(input: &[u8]) -> bool {
    parsed(input).is_ok_and(|(_, parts)| parts.plain)
}

/// Our record, and what is left of the input behind Kafka's.
fn parsed(input: &[u8]) -> Result<(Vec<u8>, Parts<'_>), u8> {
    let mut parts = Parts {
        rest: input,
        plain: true,
    };
    well_formed(parts.varint()? == FRAME_VERSION)?;
    let message = Message::of_key(parts.varint()?).ok_or(UNKNOWN_KIND)?;
    well_formed(parts.varint()? == MESSAGE_VERSION)?;
    let record = message.read(&mut parts)?;
    parts.skip_tagged()?;
    Ok((record, parts))
}

/// What is left of an input, from which one part after the other is taken.
struct Parts<'a> {
    rest: &'a [u8],
    /// Whether all varints so far are as short as can be, and there were no
    /// tagged fields.
    plain: bool,
}

impl<'a> Parts<'a> {
    fn bytes(&mut self, count: usize) -> Result<&'a [u8], u8> {
        let (bytes, rest) = self.rest.split_at_checked(count).ok_or(PAST_THE_END)?;
        self.rest = rest;
        Ok(bytes)
    }

    /// Seven bits in a byte, the lowest first; from 128 on another one follows.
    fn varint(&mut self) -> Result<u32, u8> {
        let mut number = 0;
        for place in 0..LONGEST_VARINT {
            let byte = self.bytes(1)?[0];
            well_formed(place + 1 < LONGEST_VARINT || byte <= FOUR_BITS)?;
            number |= u32::from(byte & 0x7f) << (7 * place);
            if byte < 0x80 {
                self.plain &= place == 0 || byte != 0;
                break;
            }
        }
        Ok(number)
    }

    /// A compact string: its length and one, and its bytes. 0 is null.
    fn name(&mut self) -> Result<&'a [u8], u8> {
        let length = self.varint()?.checked_sub(1).ok_or(WRONG_FIELD)?;
        let name = self.bytes(length as usize)?;
        check_string(name, LONGEST_NAME)?;
        Ok(name)
    }

    /// An int32 there, which is not negative, and eight bytes here.
    fn broker(&mut self) -> Result<[u8; 8], u8> {
        let bytes = self.bytes(4)?.try_into().expect("four bytes");
        let number = u64::try_from(i32::from_be_bytes(bytes)).map_err(|_| WRONG_FIELD)?;
        Ok(number.to_be_bytes())
    }

    /// How many there are, and of each its tag, its size and so many bytes.
    fn skip_tagged(&mut self) -> Result<(), u8> {
        let count = self.varint()?;
        self.plain &= count == 0;
        for _ in 0..count {
            self.varint()?;
            let size = self.varint()?;
            self.bytes(size as usize)?;
        }
        Ok(())
    }
}

/// Our record of these values, which have the tags from 1 on. Each is short.
fn record(kind: u8, values: &[&[u8]]) -> Vec<u8> {
    let body = values.iter().map(|value| HEADER + value.len()).sum();
    let mut bytes = Vec::with_capacity(HEADER + body);
    bytes.extend(head(kind, body));
    for (tag, value) in (1..).zip(values) {
        bytes.extend(head(tag, value.len()));
        bytes.extend(*value);
    }
    bytes
}

fn head(first: u8, length: usize) -> [u8; HEADER] {
    let [high, low] = u16::try_from(length).expect("two bytes").to_be_bytes();
    [first, high, low]
}

/// Kafka's bytes of our record at the start of the input, or the first refusal
/// before the one for the output: Read's, 3 for a kind beyond the four, 27.
pub fn write(input: &[u8]) -> Result<Vec<u8>, u8> {
    let used = read::read(input)?;
    let message = Message::of_kind(input[0]).ok_or(UNKNOWN_KIND)?;
    let fields = Run::new(&input[HEADER..used]).map_while(Result::ok);
    let mut out = Vec::with_capacity(used);
    put_varint(&mut out, FRAME_VERSION, 1);
    put_varint(&mut out, message.key(), 1);
    put_varint(&mut out, MESSAGE_VERSION, 1);
    message.write(&mut out, fields.map(|(_, value)| value))?;
    put_varint(&mut out, 0, 1);
    Ok(out)
}

fn put_name(out: &mut Vec<u8>, name: &[u8]) {
    put_varint(out, name.len() as u32 + 1, 1);
    out.extend(name);
}

/// Eight bytes here, an int32 there.
fn put_broker(out: &mut Vec<u8>, broker: &[u8]) -> Result<(), u8> {
    let number = u64::from_be_bytes(broker.try_into().expect("eight bytes"));
    let number = i32::try_from(number).map_err(|_| NOT_IN_KAFKA)?;
    out.extend(number.to_be_bytes());
    Ok(())
}

/// A varint of at least so many bytes, up to five: with 1, the shortest.
pub fn varint(number: u32, least: usize) -> Vec<u8> {
    let mut out = Vec::new();
    put_varint(&mut out, number, least);
    out
}

fn put_varint(out: &mut Vec<u8>, number: u32, least: usize) {
    let (mut rest, mut count) = (number, 1);
    while rest >= 0x80 || count < least {
        out.push(rest as u8 | 0x80);
        rest >>= 7;
        count += 1;
    }
    out.push(rest as u8);
}

/// Tagged fields: how many, and of each its tag, its size and its bytes. All
/// varints have at least so many bytes.
pub fn tagged(fields: &[(u32, &[u8])], least: usize) -> Vec<u8> {
    let mut out = varint(fields.len() as u32, least);
    for (tag, value) in fields {
        put_varint(&mut out, *tag, least);
        put_varint(&mut out, value.len() as u32, least);
        out.extend(*value);
    }
    out
}
