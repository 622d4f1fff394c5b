//! Lists with known answers: on an image with freezes, and on buffers that are
//! none.

use krabka_metadata::{MetadataRecord, PatternType};
use oracle::cases::cases;
use oracle::facts::build::freeze;
use oracle::freeze_list::{MOST_BYTES, MOST_NAMES, list, names};
use oracle::image::image;
use oracle::verdict::ACCEPTED;
use wire::{OVER_A_LIMIT, PAST_THE_END, Random, WRONG_FIELD};

use super::asked::{Asked, compare_no_image};
use crate::images::{Compared, Subject, Tally};

struct Case {
    what: &'static str,
    list: Vec<u8>,
    number: u8,
}

/// Compares each of them on the image, and all of them on every buffer that is
/// known to be none: there 1 comes first.
pub fn compare_named_freezes(tally: &mut Tally) -> Compared {
    let mut random = Random::new(0);
    let subject = Subject::of(&records());
    let buffer = image(&subject.observed, subject.weight).expect("contents that fit");
    let asked = Asked::new(&buffer, &subject.image);
    let lists = lists();
    for Case { what, list, number } in &lists {
        if names(list).err().unwrap_or(ACCEPTED) != *number {
            return Err(format!("{what}: the harness's rule says another number"));
        }
        asked
            .compare(tally, &mut random, list)
            .map_err(|difference| format!("{what}: {difference}"))?;
    }
    let lists: Vec<Vec<u8>> = lists.into_iter().map(|case| case.list).collect();
    for case in cases().iter().filter(|case| !case.is_image) {
        compare_no_image(tally, &mut random, &case.bytes, &lists)
            .map_err(|difference| format!("{:?}: {difference}", case.name))?;
    }
    Ok(())
}

/// Scopes that begin each other, of both patterns, and internal ones.
fn records() -> Vec<MetadataRecord> {
    let literal = ["", "ab", "room", "room-7", "__x", "zz"];
    let prefixed = ["", "_", "__", "ro", "room", "room-7-b", "zz"];
    let literal = literal.map(|scope| freeze(scope, PatternType::Literal));
    let prefixed = prefixed.map(|scope| freeze(scope, PatternType::Prefixed));
    prefixed.into_iter().chain(literal).collect()
}

fn lists() -> Vec<Case> {
    let long = "r".repeat(MOST_BYTES);
    let too_long = "r".repeat(MOST_BYTES + 1);
    let most = vec!["room"; MOST_NAMES];
    let case = |what, list, number| Case { what, list, number };
    let of = |names: &[&str]| list(names);
    let and = |names: &[&str], bytes: &[u8]| [&list(names)[..], bytes].concat();
    vec![
        case("no bytes", Vec::new(), ACCEPTED),
        case("one stray byte", vec![0], PAST_THE_END),
        case("a length alone", vec![0, 1], PAST_THE_END),
        case("a length past the input", vec![0, 5, b'a'], PAST_THE_END),
        case("the greatest length", vec![0xff; 3], PAST_THE_END),
        case(
            "a torn second name",
            and(&["a"], &[0, 2, b'b']),
            PAST_THE_END,
        ),
        case(
            "a torn name below",
            and(&["b"], &[0, 2, b'a']),
            PAST_THE_END,
        ),
        case(
            "ascending names",
            of(&["ab", "ro", "room-7", "zz"]),
            ACCEPTED,
        ),
        case("descending names", of(&["b", "a"]), WRONG_FIELD),
        case("a name and its beginning", of(&["room", "ro"]), WRONG_FIELD),
        case("equal names", of(&["room", "room"]), ACCEPTED),
        case("the empty name", of(&[""]), ACCEPTED),
        case("the empty name twice", of(&["", ""]), ACCEPTED),
        case("the empty name second", of(&["a", ""]), WRONG_FIELD),
        case("internal names", of(&["_", "__", "__x"]), ACCEPTED),
        case("the last scope", of(&["zz"]), ACCEPTED),
        case("behind the last scope", of(&["zzz"]), ACCEPTED),
        case("255 bytes", of(&[&long]), ACCEPTED),
        case("256 bytes", of(&[&too_long]), OVER_A_LIMIT),
        case("256 bytes, below", of(&["s", &too_long]), WRONG_FIELD),
        case("256 bytes, then below", of(&[&too_long, "a"]), OVER_A_LIMIT),
        case("300 bytes, no text", list(&[[0xff; 300]]), WRONG_FIELD),
        case(
            "no text, below",
            list(&["s".as_bytes(), b"\x80"]),
            WRONG_FIELD,
        ),
        case("256 names", of(&most), ACCEPTED),
        case("257 names", and(&most, &of(&["room"])), OVER_A_LIMIT),
        case("256 names, a byte more", and(&most, &[0]), OVER_A_LIMIT),
        case(
            "256 names, one below",
            and(&most, &of(&["a"])),
            OVER_A_LIMIT,
        ),
    ]
}
