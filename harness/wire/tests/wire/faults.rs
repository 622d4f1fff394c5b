//! What is wrong in a record whose limits are kept: 2, 3 and 4.

use wire::table::{Form, KINDS, Presence, Row};
use wire::{PAST_THE_END, UNKNOWN_KIND, WRONG_FIELD, encoded_offset, read, read_logged};

use crate::runs::{field, longest, record, variants};

#[test]
fn past_the_end_comes_before_an_unknown_kind() {
    for kind in [0, 1, 26, 27, 255] {
        for cut in [&[kind][..], &[kind, 0], &[kind, 0, 1], &[kind, 1, 0, 0, 0]] {
            assert_eq!(read(cut), Err(PAST_THE_END));
            assert_eq!(read_logged(cut), Err(PAST_THE_END));
        }
    }
    for kind in [0, 27, 255] {
        for whole in [&[kind, 0, 0][..], &[kind, 0, 1, 0]] {
            assert_eq!(read(whole), Err(UNKNOWN_KIND));
            assert_eq!(read_logged(whole), Err(UNKNOWN_KIND));
        }
    }
}

/// Of the log no record has kind 26, whatever its body is.
#[test]
fn the_log_has_no_log_offset() {
    let longer = [encoded_offset(5), vec![0; 3]].concat();
    for offset in [encoded_offset(-1), encoded_offset(i64::MAX), longer] {
        assert_eq!(read(&offset), Ok(14));
        assert_eq!(read_logged(&offset), Err(UNKNOWN_KIND));
    }
    let wrong = [
        encoded_offset(-2),
        encoded_offset(i64::MIN),
        vec![26, 0, 0],
        vec![26, 0, 1, 0],
        record(26, &[field(2, [0; 8])]),
        record(26, &[field(1, [0; 8]), field(2, [])]),
    ];
    for bytes in wrong {
        assert_eq!(read(&bytes), Err(WRONG_FIELD), "{bytes:?}");
        assert_eq!(read_logged(&bytes), Err(UNKNOWN_KIND), "{bytes:?}");
    }
}

#[test]
fn an_empty_body_lacks_a_field() {
    for kind in 1..=26 {
        assert_eq!(read(&[kind, 0, 0]), Err(WRONG_FIELD));
        assert_eq!(read(&[kind, 0, 0, 1, 0, 0]), Err(WRONG_FIELD));
    }
}

/// Every variant of every kind's longest record is answered so.
fn all_answer(answer: Result<(), u8>, changed: fn(&Row) -> Vec<Vec<u8>>) {
    for (kind, shape) in (1..).zip(&KINDS) {
        for body in variants(shape.rows, changed) {
            let bytes = field(kind, body);
            assert_eq!(read(&bytes).map(|_| ()), answer, "{bytes:?}");
        }
    }
}

#[test]
fn wrong_values_are_refused() {
    all_answer(Err(WRONG_FIELD), |row| {
        let values = wrong_values(row).into_iter();
        values.map(|value| field(row.tag, value)).collect()
    });
}

fn wrong_values(row: &Row) -> Vec<Vec<u8>> {
    use Form::*;
    let zeros = |length: usize| vec![0; length];
    let below = |offset: i64| offset.to_be_bytes().to_vec();
    let size = row.size;
    match row.form {
        U16 | U64 | I16 | I32 | I64 | F64 | Id => vec![zeros(0), zeros(size - 1), zeros(size + 1)],
        Bool | Enum => vec![zeros(0), zeros(2), vec![size as u8], vec![0xFF]],
        String | Key => vec![vec![0x80], vec![0xFF; size + 1]],
        Bytes => Vec::new(),
        Nodes | NodeSet => vec![zeros(1), zeros(7), zeros(9), zeros(8 * size + 1)],
        Ids => vec![zeros(8), zeros(15), zeros(17), zeros(16 * size + 8)],
        Offset => vec![zeros(0), zeros(7), zeros(9), below(-2), below(i64::MIN)],
        Nested(_) => vec![zeros(0), zeros(2), zeros(3)],
    }
}

#[test]
fn a_required_field_is_missed() {
    all_answer(Err(WRONG_FIELD), |row| match row.presence {
        Presence::Required => vec![Vec::new()],
        _ => Vec::new(),
    });
}

#[test]
fn other_fields_can_be_left_out() {
    all_answer(Ok(()), |row| match row.presence {
        Presence::Required => Vec::new(),
        _ => vec![Vec::new()],
    });
}

#[test]
fn a_field_that_does_not_repeat_stands_once() {
    all_answer(Err(WRONG_FIELD), |row| match row.presence {
        Presence::UpTo(_) => Vec::new(),
        _ => vec![longest(&[*row, *row], 0)],
    });
}

#[test]
fn tags_ascend_from_one_to_the_last() {
    let fields = [field(1, "a"), field(2, [0, 1])];
    let [name, level] = fields.clone();
    assert_eq!(read(&record(11, &fields)), Ok(12));
    let [zero, three] = [0, 3].map(|tag| field(tag, ""));
    let wrong = [
        vec![level.clone(), name.clone()],
        vec![zero, name.clone(), level.clone()],
        vec![name.clone(), level.clone(), three],
        vec![name.clone(), level.clone(), name.clone()],
        vec![name.clone(), level.clone(), level],
    ];
    for fields in wrong {
        assert_eq!(read(&record(11, &fields)), Err(WRONG_FIELD));
    }
}

#[test]
fn a_repeated_field_does_not_come_back() {
    let entity = field(1, field(1, "user"));
    let [key, value] = [field(2, "k"), field(3, [0; 8])];
    let good = [entity.clone(), entity.clone(), key.clone(), value.clone()];
    assert_eq!(read(&record(7, &good)).err(), None);
    for fields in [[&key, &entity, &value], [&key, &value, &entity]] {
        let bytes = field(7, fields.map(Vec::clone).concat());
        assert_eq!(read(&bytes), Err(WRONG_FIELD));
    }
}

#[test]
fn a_field_ends_with_its_run() {
    let level = field(2, [0, 1]);
    for torn in [vec![2], vec![2, 0], vec![2, 0, 2], vec![2, 0, 2, 0]] {
        let mut bytes = record(11, &[field(1, "a"), torn]);
        bytes.extend(&level);
        assert_eq!(read(&bytes), Err(WRONG_FIELD));
    }
    // The pair's value reaches into the pair after it.
    let mut torn = [field(1, "k"), field(2, "v")].concat();
    torn[6] = 2;
    let next = [field(1, "l"), field(2, "v")].concat();
    let fields = [field(1, "t"), field(2, torn), field(2, next)];
    assert_eq!(read(&record(5, &fields)), Err(WRONG_FIELD));
}

#[test]
fn strings_are_well_formed_utf8() {
    let good: [&[u8]; 9] = [
        b"\0",
        b"\x7F",
        b"\xC2\x80",
        b"\xE0\xA0\x80",
        b"\xED\x9F\xBF",
        b"\xEE\x80\x80",
        b"\xEF\xBF\xBF",
        b"\xF0\x90\x80\x80",
        b"\xF4\x8F\xBF\xBF",
    ];
    for name in good {
        assert_eq!(answer_to_name(name), Ok(11 + name.len()), "{name:X?}");
    }
    let overlong: [&[u8]; 6] = [
        b"\xC0\x80",
        b"\xC1\xBF",
        b"\xE0\x80\x80",
        b"\xE0\x9F\xBF",
        b"\xF0\x80\x80\x80",
        b"\xF0\x8F\xBF\xBF",
    ];
    let surrogates: [&[u8]; 2] = [b"\xED\xA0\x80", b"\xED\xBF\xBF"];
    let too_high: [&[u8]; 3] = [b"\xF4\x90\x80\x80", b"\xF5\x80\x80\x80", b"\xFF"];
    let torn: [&[u8]; 6] = [
        b"\x80",
        b"\xC2",
        b"\xE2\x82",
        b"\xF0\x9F\x92",
        b"\xC2a",
        b"\xE2\x82a",
    ];
    let wrong = [&overlong[..], &surrogates, &too_high, &torn].concat();
    for name in wrong {
        assert_eq!(answer_to_name(name), Err(WRONG_FIELD), "{name:X?}");
    }
}

/// What a FeatureLevel of this name is answered.
fn answer_to_name(name: &[u8]) -> Result<usize, u8> {
    read(&record(11, &[field(1, name), field(2, [0, 1])]))
}
