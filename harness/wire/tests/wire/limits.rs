//! What is over a limit, and whether 4 or 5 comes first.

use wire::table::{Form, KINDS, Presence, Row};
use wire::{OVER_A_LIMIT, WRONG_FIELD, read};

use crate::runs::{field, longest_fields, record, variants};

const OVER: Result<(), u8> = Err(OVER_A_LIMIT);
const WRONG: Result<(), u8> = Err(WRONG_FIELD);

/// What a record of these fields is answered, without the bytes used.
fn answer(kind: u8, fields: &[Vec<u8>]) -> Result<(), u8> {
    let bytes = record(kind, fields);
    read(&bytes).map(|used| assert_eq!(used, bytes.len()))
}

#[test]
fn one_over_any_limit_is_refused() {
    for (kind, shape) in (1..).zip(&KINDS) {
        for body in variants(shape.rows, one_over) {
            assert_eq!(answer(kind, &[body]), OVER, "{}", shape.name);
        }
    }
}

fn one_over(row: &Row) -> Vec<Vec<u8>> {
    if let Presence::UpTo(limit) = row.presence {
        return vec![longest_fields(row, limit + 1)];
    }
    let length = match row.form {
        Form::String | Form::Key | Form::Bytes => row.size + 1,
        Form::Nodes | Form::NodeSet => 8 * (row.size + 1),
        Form::Ids => 16 * (row.size + 1),
        _ => return Vec::new(),
    };
    vec![field(row.tag, vec![b'o'; length])]
}

fn feature_level(name: impl AsRef<[u8]>, level: &[u8]) -> Result<(), u8> {
    answer(11, &[field(1, name), field(2, level)])
}

#[test]
fn strings_have_255_bytes() {
    assert_eq!(feature_level("a".repeat(255), &[0, 1]), Ok(()));
    assert_eq!(feature_level("a".repeat(256), &[0, 1]), OVER);
    assert_eq!(feature_level("a".repeat(253) + "é", &[0, 1]), Ok(()));
    assert_eq!(feature_level("a".repeat(254) + "é", &[0, 1]), OVER);
    assert_eq!(feature_level([0xFF; 256], &[0, 1]), WRONG);
}

#[test]
fn the_first_faulty_field_decides() {
    assert_eq!(feature_level("a".repeat(256), &[0]), OVER);
    assert_eq!(feature_level([0xFF], &[0]), WRONG);
    let long = field(3, "v".repeat(256));
    let config = |node: &[u8], name: &str| {
        let fields = [field(1, node), field(2, name), long.clone()];
        answer(6, &fields)
    };
    assert_eq!(config(&[0; 7], "n"), WRONG);
    assert_eq!(config(&[0; 8], "n"), OVER);
    assert_eq!(answer(6, &[field(1, [0; 8]), long.clone()]), WRONG);
    // What is missing at the end comes after the fields that are there.
    assert_eq!(answer(11, &[field(1, "a".repeat(256))]), OVER);
}

fn elr(eligible: usize, last_known: usize) -> Result<(), u8> {
    let lists = [field(3, vec![0; eligible]), field(4, vec![0; last_known])];
    let [eligible, last_known] = lists;
    answer(21, &[field(1, "t"), field(2, [0; 4]), eligible, last_known])
}

#[test]
fn lists_have_64_elements() {
    assert_eq!(elr(64 * 8, 64 * 8), Ok(()));
    assert_eq!(elr(65 * 8, 0), OVER);
    assert_eq!(elr(0, 65 * 8), OVER);
    assert_eq!(elr(65 * 8 + 1, 0), WRONG);
    assert_eq!(elr(65 * 8, 1), OVER);
    assert_eq!(elr(1, 65 * 8), WRONG);
    let directories = |length: usize| {
        let fixed = [
            field(1, [0; 8]),
            field(2, [0; 8]),
            field(3, [0]),
            field(4, [0]),
        ];
        answer(24, &[fixed.concat(), field(5, vec![0; length])])
    };
    assert_eq!(directories(64 * 16), Ok(()));
    assert_eq!(directories(65 * 16), OVER);
    assert_eq!(directories(65 * 16 + 8), WRONG);
}

/// What a TopicConfig of these pairs is answered.
fn config(pairs: &[Vec<u8>]) -> Result<(), u8> {
    let pairs = pairs.iter().map(|pair| field(2, pair));
    answer(5, &[field(1, "t"), pairs.collect::<Vec<_>>().concat()])
}

fn pair(key: impl AsRef<[u8]>, value: impl AsRef<[u8]>) -> Vec<u8> {
    [field(1, key), field(2, value)].concat()
}

/// Pairs with the keys "00", "01", ..
fn pairs(number: usize) -> Vec<Vec<u8>> {
    let keys = (0..number).map(|place| format!("{place:02}"));
    keys.map(|key| pair(key, "v")).collect()
}

#[test]
fn maps_have_64_pairs() {
    assert_eq!(config(&pairs(64)), Ok(()));
    assert_eq!(config(&pairs(65)), OVER);
    let last = |key: &str, value: &[u8]| {
        let pairs = [pairs(64), vec![pair(key, value)]].concat();
        config(&pairs)
    };
    assert_eq!(last("64", b"v"), OVER);
    assert_eq!(last("63", b"v"), WRONG);
    assert_eq!(last("00", b"v"), WRONG);
    assert_eq!(last("64", b"\xFF"), WRONG);
    // After one pair too many nothing else decides.
    let pairs = [pairs(65), vec![pair("00", "v")]].concat();
    assert_eq!(config(&pairs), OVER);
}

#[test]
fn features_are_a_map_too() {
    let features = |names: &[&str]| {
        let fixed = [field(1, [0; 8]), field(2, [0; 16]), field(3, [0])];
        let feature = |name: &&str| {
            let range = [field(2, [0, 0]), field(3, [0, 1])].concat();
            field(5, [field(1, name), range].concat())
        };
        let features: Vec<Vec<u8>> = names.iter().map(feature).collect();
        answer(17, &[fixed.concat(), features.concat()])
    };
    assert_eq!(features(&["a", "b"]), Ok(()));
    assert_eq!(features(&["a", "a"]), WRONG);
    assert_eq!(features(&["b", "a"]), WRONG);
}

#[test]
fn map_keys_strictly_ascend_by_bytes() {
    let keys = |keys: &[&str]| {
        let pairs: Vec<Vec<u8>> = keys.iter().map(|key| pair(key, "")).collect();
        config(&pairs)
    };
    assert_eq!(keys(&["", "\0", "a", "aa", "ab", "b", "é", "𝄞"]), Ok(()));
    assert_eq!(keys(&["", ""]), WRONG);
    assert_eq!(keys(&["a", "a"]), WRONG);
    assert_eq!(keys(&["b", "a"]), WRONG);
    assert_eq!(keys(&["aa", "a"]), WRONG);
    assert_eq!(keys(&["a", ""]), WRONG);
    assert_eq!(keys(&["é", "z"]), WRONG);
    assert_eq!(keys(&["a", "c", "b"]), WRONG);
}

#[test]
fn a_keys_order_comes_before_its_limit() {
    let long = "k".repeat(256);
    assert_eq!(config(&[pair(&long, "v")]), OVER);
    assert_eq!(config(&[pair("a", "v"), pair(&long, "v")]), OVER);
    assert_eq!(config(&[pair("l", "v"), pair(&long, "v")]), WRONG);
    assert_eq!(config(&[pair([0xFF; 256], "v")]), WRONG);
    // The key's limit comes before the value, the value before what is after.
    assert_eq!(config(&[pair(&long, [0xFF])]), OVER);
    assert_eq!(config(&[field(1, &long)]), OVER);
    assert_eq!(config(&[pair("a", &long), pair("a", "v")]), OVER);
    assert_eq!(config(&[pair("a", [0xFF]), pair(&long, "v")]), WRONG);
}

/// So many elements of one tag.
fn elements(tag: u8, element: &[u8], number: usize) -> Vec<u8> {
    field(tag, element).repeat(number)
}

#[test]
fn quotas_have_8_entities() {
    let quota = |number: usize, last: &[u8]| {
        let entities = elements(1, &field(1, "user"), number);
        answer(7, &[entities, last.to_vec(), field(2, "k")])
    };
    assert_eq!(quota(8, &[]), Ok(()));
    assert_eq!(quota(9, &[]), OVER);
    assert_eq!(quota(8, &field(1, field(1, [0xFF]))), WRONG);
    assert_eq!(quota(8, &field(1, "")), WRONG);
    assert_eq!(quota(8, &field(1, field(1, "u".repeat(256)))), OVER);
    assert_eq!(quota(9, &field(1, "")), OVER);
}

#[test]
fn registrations_have_16_endpoints() {
    let endpoint = [
        field(1, "n"),
        field(2, "h"),
        field(3, [0, 1]),
        field(4, [3]),
    ];
    let controller = |number: usize| {
        let fixed = [field(1, [0; 8]), field(2, [0; 16]), field(3, [0])];
        let endpoints = elements(4, &endpoint.concat(), number);
        answer(17, &[fixed.concat(), endpoints])
    };
    assert_eq!(controller(16), Ok(()));
    assert_eq!(controller(17), OVER);
}

/// What a proposal with so many approvals and so long signatures is answered.
fn proposal(approvals: usize, signature: usize) -> Result<(), u8> {
    let approval = [
        field(1, "p"),
        field(2, [0; 8]),
        field(3, "k"),
        field(4, vec![0xFF; signature]),
    ];
    let fields = [
        field(1, [0; 16]),
        field(2, [6]),
        field(3, "t"),
        field(4, "p"),
        field(5, "r"),
        field(6, [0; 8]),
        field(7, [0; 8]),
        elements(8, &approval.concat(), approvals),
        field(9, [0; 8]),
        field(10, [1]),
    ];
    answer(19, &fields)
}

#[test]
fn proposals_have_16_approvals() {
    assert_eq!(proposal(16, 512), Ok(()));
    assert_eq!(proposal(17, 512), OVER);
    assert_eq!(proposal(1, 513), OVER);
}

#[test]
fn bodies_have_up_to_65535_bytes() {
    let length = 65_535 - 3 - 5;
    assert_eq!(feature_level("a".repeat(length), &[0, 1]), OVER);
    assert_eq!(feature_level(vec![0xFF; length], &[0, 1]), WRONG);
    let bytes = record(11, &[field(1, "a"), vec![0; 65_531]]);
    assert_eq!(bytes.len(), 3 + 65_535);
    assert_eq!(read(&bytes), Err(WRONG_FIELD));
    assert_eq!(read(&bytes[..65_537]), Err(wire::PAST_THE_END));
}
