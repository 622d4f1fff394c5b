//! Records with known answers: the four examples and what is near them, and each
//! part at its ends and beyond.

use oracle::verdict::ACCEPTED;
use wire::kafka::{MESSAGES, NOT_IN_KAFKA, read, tagged, varint, write};
use wire::{OVER_A_LIMIT, PAST_THE_END, Random, UNKNOWN_KIND, WRONG_FIELD, encoded_offset, field};

use super::Input::{self, Ours, Theirs};
use super::frames::with_fifth;
use crate::images::{Compared, Tally};

struct Case {
    what: &'static str,
    input: Input,
    number: u8,
}

/// Compares each of them; the harness's own codec says the number that is known.
pub fn compare_named(tally: &mut Tally) -> Compared {
    let mut random = Random::new(0);
    for Case {
        what,
        input,
        number,
    } in cases()
    {
        if said(&input) != number {
            return Err(format!("{what}: the harness's codec says another number"));
        }
        input
            .compare(tally, &mut random)
            .map_err(|difference| format!("{what}: {difference}"))?;
    }
    Ok(())
}

/// Compares the examples both ways with each byte as every byte, and cut at every
/// place.
pub fn compare_bytes(tally: &mut Tally) -> Compared {
    let mut random = Random::new(0);
    for (theirs, ours) in examples() {
        for bytes in near(&theirs) {
            Theirs(bytes).compare(tally, &mut random)?;
        }
        for bytes in near(&ours) {
            Ours(bytes).compare(tally, &mut random)?;
        }
    }
    Ok(())
}

/// Every cut, and every byte as every byte.
fn near(record: &[u8]) -> impl Iterator<Item = Vec<u8>> {
    let cuts = (0..=record.len()).map(|end| record[..end].to_vec());
    let places = (0..record.len()).flat_map(|place| (0..=u8::MAX).map(move |byte| (place, byte)));
    let changed = places.map(|(place, byte)| {
        let mut bytes = record.to_vec();
        bytes[place] = byte;
        bytes
    });
    cuts.chain(changed)
}

/// What the harness's own codec says.
fn said(input: &Input) -> u8 {
    let refused = match input {
        Theirs(bytes) => read(bytes).err(),
        Ours(bytes) => write(bytes).err(),
    };
    refused.unwrap_or(ACCEPTED)
}

/// The examples of docs/FORMAT.md, Kafka's bytes and ours.
fn examples() -> [(Vec<u8>, Vec<u8>); 4] {
    let id: Vec<u8> = (0..16).map(|place| place * 0x11).collect();
    let numbers = [7, 9, 1_000_u64].map(|number| number.to_be_bytes());
    let [broker, epoch, next] = &numbers;
    let short = &broker[4..];
    [
        (
            framed(2, &[b"\x07orders", &id]),
            ours(1, &[b"orders", &id, &[0; 4], &[0; 2]]),
        ),
        (framed(12, &[b"\x02a", &[0, 1]]), ours(11, &[b"a", &[0, 1]])),
        (
            framed(15, &[short, epoch, next]),
            ours(8, &[broker, epoch, next]),
        ),
        (framed(1, &[short, epoch]), ours(9, &[broker, epoch])),
    ]
}

/// Kafka's bytes of a message without tagged fields.
fn framed(key: u8, fields: &[&[u8]]) -> Vec<u8> {
    [&[1, key, 0], &fields.concat()[..], &[0]].concat()
}

/// Our record of these values.
fn ours(kind: u8, values: &[&[u8]]) -> Vec<u8> {
    let fields: Vec<u8> = (1..)
        .zip(values)
        .flat_map(|(tag, value)| field(tag, value))
        .collect();
    field(kind, &fields)
}

fn cases() -> Vec<Case> {
    [
        heads(),
        varints(),
        names(),
        brokers(),
        tagged_fields(),
        written_names(),
        written_brokers(),
        other_kinds(),
    ]
    .into_iter()
    .flatten()
    .collect()
}

fn theirs(what: &'static str, bytes: Vec<u8>, number: u8) -> Case {
    let input = Theirs(bytes);
    Case {
        what,
        input,
        number,
    }
}

fn own(what: &'static str, bytes: Vec<u8>, number: u8) -> Case {
    let input = Ours(bytes);
    Case {
        what,
        input,
        number,
    }
}

/// The frame's version, the message's key and its version.
fn heads() -> Vec<Case> {
    let mut cases: Vec<Case> = [0, 2, 3, 127]
        .map(|version| theirs("another frame version", vec![version, 99], WRONG_FIELD))
        .into();
    let keys = MESSAGES.map(|message| message.key() as u8);
    for key in 0..128 {
        let torn = vec![1, key, 0x80];
        let (number, other) = match keys.contains(&key) {
            true => (PAST_THE_END, WRONG_FIELD),
            false => (UNKNOWN_KIND, UNKNOWN_KIND),
        };
        cases.push(theirs("a key alone", vec![1, key], number));
        cases.push(theirs("a key, a torn version", torn, number));
        cases.push(theirs("a key, another version", vec![1, key, 1], other));
    }
    for key in [128, 129, 130, 140, 143, 1 << 14, 1 << 31, u32::MAX] {
        let bytes = [vec![1], varint(key, 1), vec![0]].concat();
        cases.push(theirs("a key of some bytes", bytes, UNKNOWN_KIND));
    }
    cases
}

/// Each varint of a level with one tagged field: in longer forms, with fifth
/// bytes about the last that there may be, and cut there.
fn varints() -> Vec<Case> {
    let mut cases = Vec::new();
    for place in 0..7 {
        for least in 1..=5 {
            let form = |number| varint(number, least);
            cases.push(theirs("a longer varint", level(place, &form), ACCEPTED));
        }
        let last = |fifth| move |number| with_fifth(number, fifth);
        let number = [
            WRONG_FIELD,
            UNKNOWN_KIND,
            WRONG_FIELD,
            PAST_THE_END,
            PAST_THE_END,
            ACCEPTED,
            PAST_THE_END,
        ][place];
        cases.push(theirs("a fifth byte 15", level(place, &last(15)), number));
        for fifth in [16, 0x7f, 0x80, 0xff] {
            let bytes = level(place, &last(fifth));
            cases.push(theirs("a fifth byte above 15", bytes, WRONG_FIELD));
        }
    }
    for count in 1..=4 {
        let torn = vec![0x81; count];
        cases.push(theirs("a torn varint", torn, PAST_THE_END));
    }
    cases
}

/// A level with one tagged field, one of whose varints has this form: the frame's
/// version, the key, the version, the name's length, the count, the tag, the size.
fn level(place: usize, form: &dyn Fn(u32) -> Vec<u8>) -> Vec<u8> {
    let number = |at: usize, number: u32| match at == place {
        true => form(number),
        false => varint(number, 1),
    };
    [
        number(0, 1),
        number(1, 12),
        number(2, 0),
        number(3, 2),
        b"a\0\x01".to_vec(),
        number(4, 1),
        number(5, 5),
        number(6, 3),
        b"abc".to_vec(),
    ]
    .concat()
}

/// The names of a topic and of a level.
fn names() -> Vec<Case> {
    let (longest, over) = ("n".repeat(255), "n".repeat(256));
    let no_text = [over.as_bytes(), &[0xff]].concat();
    let named: [(&str, u32, &[u8], u8); 16] = [
        ("a null name", 0, b"", WRONG_FIELD),
        ("an empty name", 1, b"", ACCEPTED),
        ("a name", 2, b"a", ACCEPTED),
        (
            "a name of 126 bytes",
            127,
            &over.as_bytes()[..126],
            ACCEPTED,
        ),
        (
            "a name of 127 bytes",
            128,
            &over.as_bytes()[..127],
            ACCEPTED,
        ),
        ("a name of 255 bytes", 256, longest.as_bytes(), ACCEPTED),
        ("a name of 256 bytes", 257, over.as_bytes(), OVER_A_LIMIT),
        ("no UTF-8", 2, &[0xff], WRONG_FIELD),
        ("half a character", 2, &[0xc3], WRONG_FIELD),
        ("a surrogate", 4, &[0xed, 0xa0, 0x80], WRONG_FIELD),
        ("no UTF-8 of 257 bytes", 258, &no_text, WRONG_FIELD),
        ("a length past the input", 100, b"a", PAST_THE_END),
        ("that of 255 past it", 256, b"a", PAST_THE_END),
        ("that of 256 past it", 257, &[0xff], PAST_THE_END),
        (
            "two bytes short",
            300,
            &over.as_bytes()[..255],
            PAST_THE_END,
        ),
        ("the greatest length", u32::MAX, b"a", PAST_THE_END),
    ];
    let message = |key: u8, width: usize, length: u32, name: &[u8]| {
        framed(key, &[&varint(length, 1), name, &vec![0x11; width]])
    };
    let both = named.into_iter().flat_map(|(what, length, name, number)| {
        [(2, 16), (12, 2)].map(|(key, width)| (what, message(key, width, length, name), number))
    });
    both.map(|(what, bytes, number)| theirs(what, bytes, number))
        .collect()
}

/// Brokers that Kafka's bytes may hold, and negative ones, whole and cut.
fn brokers() -> Vec<Case> {
    let numbers = [0, 1, 7, i32::MAX - 1, i32::MAX].map(|number| (number, ACCEPTED));
    let negative = [-1, -2, i32::MIN, i32::MIN + 1].map(|number| (number, WRONG_FIELD));
    let mut cases = Vec::new();
    for (number, answer) in numbers.into_iter().chain(negative) {
        for (key, width) in [(1, 8), (15, 16)] {
            let bytes = framed(key, &[&number.to_be_bytes(), &vec![0xff; width]]);
            let cut = if answer == ACCEPTED {
                PAST_THE_END
            } else {
                answer
            };
            cases.push(theirs("a broker cut behind", bytes[..7].to_vec(), cut));
            cases.push(theirs("a broker cut", bytes[..6].to_vec(), PAST_THE_END));
            cases.push(theirs("a broker", bytes, answer));
        }
    }
    cases
}

/// Behind each example: any tags and sizes, and counts and sizes past the input.
fn tagged_fields() -> Vec<Case> {
    let long = vec![0x55; 70_000];
    let many = [(0, &b""[..]); 300];
    let sets: [&[(u32, &[u8])]; 6] = [
        &[(0, b"")],
        &[(5, b"abc"), (0, b"")],
        &[(7, b"a"), (7, b"b"), (1, b"")],
        &[(u32::MAX, &[0xff; 3]), (u32::MAX - 1, b"")],
        &[(2, &long)],
        &many,
    ];
    let mut cases = Vec::new();
    for (bytes, _) in examples() {
        let fields = &bytes[..bytes.len() - 1];
        for set in sets {
            for least in [1, 3, 5] {
                let bytes = [fields, &tagged(set, least)].concat();
                let cut = bytes[..bytes.len() - 1].to_vec();
                cases.push(theirs("tagged fields", bytes, ACCEPTED));
                cases.push(theirs("tagged fields, cut", cut, PAST_THE_END));
            }
        }
        for number in [2, 3, 200, 1 << 31, u32::MAX] {
            let count = [fields, &varint(number, 1), &[0, 0]].concat();
            let size = [fields, &[1, 0], &varint(number, 1), &[0]].concat();
            cases.push(theirs("a count past the input", count, PAST_THE_END));
            cases.push(theirs("a size past the input", size, PAST_THE_END));
        }
    }
    cases
}

/// Our topics and levels, of names about the varints' ends.
fn written_names() -> Vec<Case> {
    let mut cases = Vec::new();
    for (length, number) in [
        (0, ACCEPTED),
        (1, ACCEPTED),
        (126, ACCEPTED),
        (127, ACCEPTED),
        (255, ACCEPTED),
        (256, OVER_A_LIMIT),
    ] {
        let name = vec![b'n'; length];
        let topic = ours(1, &[&name, &[7; 16], &[0, 0, 0, 12], &[0, 3]]);
        cases.push(own("a topic", topic, number));
        let level = ours(11, &[&name, &[0xff, 0xfe]]);
        cases.push(own("a level", level, number));
    }
    let no_text = ours(11, &[&[0xff], &[0, 1]]);
    cases.push(own("a level of no text", no_text, WRONG_FIELD));
    cases
}

/// Our brokers up to the last that Kafka has, and beyond.
fn written_brokers() -> Vec<Case> {
    let held = [0, 1, 7, (1 << 31) - 1].map(|number| (number, ACCEPTED));
    let beyond = [1 << 31, (1 << 32) - 1, 1 << 32, 1 << 63, u64::MAX];
    let beyond = beyond.map(|number| (number, NOT_IN_KAFKA));
    let mut cases = Vec::new();
    for (number, answer) in held.into_iter().chain(beyond) {
        let (broker, other) = (u64::to_be_bytes(number), [0xff; 8]);
        let producers = ours(8, &[&broker, &other, &other]);
        let unregistered = ours(9, &[&broker, &other]);
        let torn = unregistered[..unregistered.len() - 1].to_vec();
        cases.push(own("our broker, cut", torn, PAST_THE_END));
        cases.push(own("our producer ids", producers, answer));
        cases.push(own("our broker", unregistered, answer));
    }
    cases
}

/// Other kinds: 3 behind Read's own numbers.
fn other_kinds() -> Vec<Case> {
    vec![
        own("no bytes", Vec::new(), PAST_THE_END),
        own("no kind", vec![0, 0, 0], UNKNOWN_KIND),
        own("a kind past the last", vec![27, 0, 0], UNKNOWN_KIND),
        own("a log offset", encoded_offset(5), UNKNOWN_KIND),
        own("a log offset below -1", encoded_offset(-2), WRONG_FIELD),
        own("a deleted topic", ours(4, &[b"p"]), UNKNOWN_KIND),
        own("one of no text", ours(4, &[&[0xff]]), WRONG_FIELD),
        own("one too long", ours(4, &[&[b'n'; 256]]), OVER_A_LIMIT),
        own("a kraft version", ours(10, &[&[0, 1]]), UNKNOWN_KIND),
    ]
}
