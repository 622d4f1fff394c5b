//! Kafka's own record bytes: the four examples, the forms that read alike, and
//! the refusals of each part.

use krabka_metadata::MetadataRecord::{V1FeatureLevel, V1ProducerIds, V1Topic, V1UnregisterBroker};
use wire::kafka::{
    FRAME_VERSION, MESSAGE_VERSION, MESSAGES, NOT_IN_KAFKA, is_plain, read, tagged, varint, write,
};
use wire::{
    OVER_A_LIMIT, PAST_THE_END, UNKNOWN_KIND, WRONG_FIELD, decode, encoded_offset, field, hex,
};

use crate::samples::filled;

/// The topic "orders", level 1 of the feature "a", producer ids from 1,000 on at
/// epoch 9 of broker 7, and the end of that broker.
const EXAMPLES: [(&str, &str); 4] = [
    (
        "010200076f726465727300112233445566778899aabbccddeeff00",
        "0100280100066f726465727302001000112233445566778899aabbccddeeff030004000000000400020000",
    ),
    ("010c000261000100", "0b0009010001610200020001"),
    (
        "010f0000000007000000000000000900000000000003e800",
        "0800210100080000000000000007020008000000000000000903000800000000000003e8",
    ),
    (
        "01010000000007000000000000000900",
        "09001601000800000000000000070200080000000000000009",
    ),
];

fn bytes(digits: &str) -> Vec<u8> {
    let byte = |place| u8::from_str_radix(&digits[place..place + 2], 16).expect("two digits");
    (0..digits.len()).step_by(2).map(byte).collect()
}

fn examples() -> [(Vec<u8>, Vec<u8>); 4] {
    EXAMPLES.map(|(theirs, ours)| (bytes(theirs), bytes(ours)))
}

/// A level of a feature whose name has this length before it and these bytes.
fn level(length: u32, name: &[u8]) -> Vec<u8> {
    [&[1, 12, 0][..], &varint(length, 1), name, &[0, 1, 0]].concat()
}

/// A broker that is unregistered at epoch 9.
fn broker(id: i32) -> Vec<u8> {
    [
        &[1, 1, 0][..],
        &id.to_be_bytes(),
        &[0, 0, 0, 0, 0, 0, 0, 9, 0],
    ]
    .concat()
}

fn refused(input: &[u8], number: u8) {
    assert_eq!(read(input), Err(number), "{}", hex(input));
}

#[test]
fn the_examples_go_both_ways() {
    for (theirs, ours) in examples() {
        assert_eq!(read(&theirs), Ok((ours.clone(), theirs.len())));
        assert_eq!(write(&ours), Ok(theirs.clone()));
        assert!(is_plain(&theirs));
        let (longer, more) = ([&theirs[..], &[9]].concat(), [&ours[..], &[9]].concat());
        assert_eq!(read(&longer), Ok((ours, theirs.len())));
        assert_eq!(write(&more), Ok(theirs));
    }
}

#[test]
fn every_cut_runs_past_the_end() {
    for (theirs, ours) in examples() {
        for end in 0..theirs.len() {
            refused(&theirs[..end], PAST_THE_END);
        }
        for end in 0..ours.len() {
            assert_eq!(write(&ours[..end]), Err(PAST_THE_END));
        }
    }
}

#[test]
fn varints_have_up_to_five_bytes() {
    assert_eq!(varint(0, 1), [0]);
    assert_eq!(varint(127, 1), [0x7f]);
    assert_eq!(varint(128, 1), [0x80, 1]);
    assert_eq!(varint(300, 1), [0xac, 2]);
    assert_eq!(varint(u32::MAX, 1), [0xff, 0xff, 0xff, 0xff, 15]);
    assert_eq!(varint(1, 2), [0x81, 0]);
    assert_eq!(varint(0, 5), [0x80, 0x80, 0x80, 0x80, 0]);
    assert_eq!(varint(128, 3), [0x80, 0x81, 0]);
}

/// Each varint of an example by itself in each of its forms.
#[test]
fn longer_varints_read_alike_and_are_not_plain() {
    let (_, ours) = &examples()[1];
    for place in 0..5 {
        for least in 2..=5 {
            let form = |at, number| varint(number, if at == place { least } else { 1 });
            let input = [
                &form(0, FRAME_VERSION)[..],
                &form(1, 12),
                &form(2, MESSAGE_VERSION),
                &form(3, 2),
                b"a\0\x01",
                &form(4, 0),
            ]
            .concat();
            assert_eq!(read(&input), Ok((ours.clone(), input.len())));
            assert!(!is_plain(&input));
        }
    }
}

/// The fifth byte has four bits, and nothing follows it.
#[test]
fn a_fifth_byte_above_fifteen_is_wrong() {
    let long = |fifth| [0xff, 0xff, 0xff, 0xff, fifth];
    for fifth in [16, 0x7f, 0x80, 0xff] {
        refused(&long(fifth), WRONG_FIELD);
        refused(&[&[1][..], &long(fifth)].concat(), WRONG_FIELD);
        refused(&[&[1, 12][..], &long(fifth)].concat(), WRONG_FIELD);
        refused(&[&[1, 12, 0][..], &long(fifth)].concat(), WRONG_FIELD);
        let tagged = [&[1, 12, 0, 1, 0, 1][..], &long(fifth)].concat();
        refused(&tagged, WRONG_FIELD);
    }
    refused(&long(15), WRONG_FIELD);
    refused(&[&[1][..], &long(15)].concat(), UNKNOWN_KIND);
    refused(&[&[1, 12][..], &long(15)].concat(), WRONG_FIELD);
    refused(&[&[1, 12, 0][..], &long(15)].concat(), PAST_THE_END);
    refused(&[0xff; 4], PAST_THE_END);
}

#[test]
fn versions_and_keys_are_judged_in_byte_order() {
    for version in [0, 2, 127] {
        refused(&[version], WRONG_FIELD);
        refused(&[version, 99, 1], WRONG_FIELD);
    }
    let keys = MESSAGES.map(|message| message.key() as u8);
    for key in (0..128).filter(|key| !keys.contains(key)) {
        refused(&[1, key], UNKNOWN_KIND);
        refused(&[1, key, 0x80], UNKNOWN_KIND);
        refused(&[1, key, 1], UNKNOWN_KIND);
    }
    for key in keys {
        refused(&[1, key], PAST_THE_END);
        refused(&[1, key, 0x80], PAST_THE_END);
        refused(&[1, key, 1], WRONG_FIELD);
    }
}

#[test]
fn names_run_past_the_end_before_they_are_no_text_before_they_are_too_long() {
    refused(&level(0, b""), WRONG_FIELD);
    let (longest, over) = ([b'n'; 255], [b'n'; 256]);
    for name in [&b""[..], b"a", "é".as_bytes(), &[b'n'; 127], &longest] {
        let input = level(name.len() as u32 + 1, name);
        let (ours, used) = read(&input).expect("a level");
        assert_eq!((write(&ours), used), (Ok(input.clone()), input.len()));
    }
    refused(&level(257, &over), OVER_A_LIMIT);
    let mut no_text = over;
    no_text[255] = 0xff;
    refused(&level(257, &no_text), WRONG_FIELD);
    refused(&level(2, &[0xff]), WRONG_FIELD);
    for length in [20, 256, 257, 1_000, u32::MAX] {
        refused(&level(length, b"short"), PAST_THE_END);
        refused(&level(length, &[0xff; 9]), PAST_THE_END);
    }
    refused(&[1, 12, 0, 2, 0xff], WRONG_FIELD);
}

#[test]
fn brokers_are_not_negative() {
    for id in [0, 7, i32::MAX] {
        let input = broker(id);
        let (ours, _) = read(&input).expect("a broker");
        assert_eq!(write(&ours), Ok(input));
    }
    for id in [-1, i32::MIN] {
        refused(&broker(id), WRONG_FIELD);
        refused(&broker(id)[..7], WRONG_FIELD);
        refused(&broker(id)[..6], PAST_THE_END);
    }
}

#[test]
fn brokers_from_two_to_the_31_on_are_not_in_kafka() {
    let ours = |kind, id: u64, numbers: &[u8]| {
        let numbers = numbers.iter().flat_map(|tag| field(*tag, &[0; 8]));
        let broker = field(1, &id.to_be_bytes());
        field(
            kind,
            &broker.into_iter().chain(numbers).collect::<Vec<u8>>(),
        )
    };
    for (id, number) in [
        (0, None),
        ((1 << 31) - 1, None),
        (1 << 31, Some(NOT_IN_KAFKA)),
        (1 << 32, Some(NOT_IN_KAFKA)),
        (u64::MAX, Some(NOT_IN_KAFKA)),
    ] {
        assert_eq!(write(&ours(9, id, &[2])).err(), number);
        assert_eq!(write(&ours(8, id, &[2, 3])).err(), number);
    }
}

#[test]
fn tagged_fields_are_skipped_whatever_their_tags() {
    let sets: [&[(u32, &[u8])]; 5] = [
        &[(0, b"")],
        &[(5, b"abc"), (0, b"")],
        &[(7, b""), (7, b""), (1, &[0x55; 200])],
        &[(u32::MAX, &[0xff; 3])],
        &[(3, &[0; 20_000])],
    ];
    for (theirs, ours) in examples() {
        let fields = &theirs[..theirs.len() - 1];
        for set in sets {
            for least in [1, 2, 5] {
                let input = [fields, &tagged(set, least)].concat();
                assert_eq!(read(&input), Ok((ours.clone(), input.len())));
                assert!(!is_plain(&input));
                refused(&input[..input.len() - 1], PAST_THE_END);
            }
        }
    }
}

#[test]
fn counts_and_sizes_past_the_input() {
    let (theirs, _) = &examples()[1];
    let fields = &theirs[..theirs.len() - 1];
    for count in [1, 2, 200, u32::MAX] {
        refused(&[fields, &varint(count, 1)].concat(), PAST_THE_END);
        refused(&[fields, &varint(count, 1), &[0]].concat(), PAST_THE_END);
    }
    for size in [1, 200, u32::MAX] {
        let field = [&[1, 0][..], &varint(size, 1)].concat();
        refused(&[fields, &field].concat(), PAST_THE_END);
    }
}

/// Of all kinds four are written, and these read back alike but for a topic's
/// count and replication factor.
#[test]
fn samples_are_written_and_read_back() {
    let mut written = 0;
    for (record, ours) in filled() {
        let expected = match record.clone() {
            V1Topic(mut topic) => {
                (topic.partitions, topic.replication_factor) = (0, 0);
                V1Topic(topic)
            }
            V1ProducerIds(_) | V1UnregisterBroker(_) | V1FeatureLevel(_) => record,
            _ => {
                assert_eq!(write(&ours), Err(UNKNOWN_KIND));
                continue;
            }
        };
        let theirs = write(&ours).expect("a record that Kafka has");
        let (back, used) = read(&theirs).expect("what was written");
        assert_eq!(used, theirs.len());
        assert_eq!(decode(&back), Ok((expected, back.len())));
        written += 1;
    }
    assert_eq!(written, MESSAGES.len());
    assert_eq!(write(&encoded_offset(5)), Err(UNKNOWN_KIND));
}
