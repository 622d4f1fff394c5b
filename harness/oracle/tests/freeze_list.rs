//! The rules on a list of names: held to lists with known answers, and to the
//! stored lines of the program `test_freeze_list`.

mod vectors;

use krabka_metadata::{MetadataImage, PatternType};
use oracle::facts::build::{applied, freeze, thaw};
use oracle::freeze_list::{MOST_NAMES, NO_FREEZE, index, list, names, read, stored};
use oracle::snapshot::{next, start};
use oracle::verdict::NO_IMAGE;
use uuid::Uuid;
use vectors::stored_lines;
use wire::{OVER_A_LIMIT, PAST_THE_END, TOO_SHORT, WRONG_FIELD, hex};

/// Literal "__x", "ab", "room-7", "zz" (0 to 3), prefixed "__", "ro", "room",
/// "zz" (4 to 7).
fn rooms() -> MetadataImage {
    let literal = ["zz", "room-7", "__x", "ab"].map(|scope| freeze(scope, PatternType::Literal));
    let prefixed = ["room", "zz", "__", "ro"].map(|scope| freeze(scope, PatternType::Prefixed));
    applied(&[prefixed, literal].concat())
}

fn indexes(image: &MetadataImage, names: &[&str]) -> Vec<u16> {
    let freezes = stored(image);
    let index = |name: &&str| index(image, &freezes, name);
    names.iter().map(index).collect()
}

#[test]
fn literal_scopes_come_first_and_internal_names_have_no_freeze() {
    let names = [
        "__x", "ab", "abc", "ro", "room", "room-6", "room-7", "zy", "zz", "zzz",
    ];
    let expected = [NO_FREEZE, 1, NO_FREEZE, 5, 6, 6, 2, NO_FREEZE, 3, 7];
    assert_eq!(indexes(&rooms(), &names), expected);
}

#[test]
fn a_thaw_moves_the_freezes_behind_it_up() {
    let records = [
        freeze("a", PatternType::Literal),
        freeze("b", PatternType::Literal),
        freeze("", PatternType::Prefixed),
        thaw("a", PatternType::Literal),
    ];
    assert_eq!(indexes(&applied(&records), &["", "a", "b"]), [1, 1, 0]);
}

/// Of each pattern those up to the last name, and the next one: also where the
/// last scope is the last name, and none where there is no next one.
#[test]
fn what_is_read_goes_by_the_last_name() {
    let image = rooms();
    let freezes = stored(&image);
    let read_up_to = |last| read(&freezes, &["", last]);
    assert_eq!(read(&freezes, &[]), 0);
    assert_eq!(read(&[], &["room"]), 0);
    for (last, expected) in [
        ("", 2),
        ("__", 3),
        ("__x", 4),
        ("ab", 5),
        ("ro", 6),
        ("room", 7),
        ("room-7", 8),
        ("zy", 8),
        ("zz", 8),
        ("zzz", 8),
    ] {
        assert_eq!(read_up_to(last), expected, "{last:?}");
    }
}

#[test]
fn the_first_faulty_name_decides() {
    let long = "n".repeat(256);
    let many = vec!["n"; MOST_NAMES];
    let good: [&[&str]; 4] = [&[], &[""], &["a", "a", "b"], &many];
    for good in good {
        assert_eq!(names(&list(good)), Ok(good.to_vec()));
    }
    let refused: [(Vec<u8>, u8); 11] = [
        (vec![0], PAST_THE_END),
        (vec![0, 1], PAST_THE_END),
        (vec![0, 3, 0xff, 0xff], PAST_THE_END),
        (list(&["b", "a"]), WRONG_FIELD),
        (list(&[&[0xff_u8; 300]]), WRONG_FIELD),
        (list(&[&long]), OVER_A_LIMIT),
        (list(&["o", &long]), WRONG_FIELD),
        (list(&[&long, "a"]), OVER_A_LIMIT),
        ([list(&["b", "a"]), vec![9]].concat(), WRONG_FIELD),
        ([list(&many), vec![9]].concat(), OVER_A_LIMIT),
        (list(&vec!["n"; MOST_NAMES + 1]), OVER_A_LIMIT),
    ];
    for (list, number) in refused {
        assert_eq!(names(&list), Err(number), "{list:?}");
    }
}

#[test]
fn the_stored_lists_are_the_references() {
    for (line, expected) in stored_lines("test_freeze_list") {
        assert_eq!(answer(&line), expected, "{}", hex(&line));
    }
}

/// What the program says to a line: whether there is an image, the output's
/// bytes, the length of a run that is restored, the run, and the list.
fn answer(line: &[u8]) -> String {
    let (&[is_image, high, low, run_high, run_low], rest) =
        line.split_first_chunk().expect("a line's head");
    let [room, run] = [[high, low], [run_high, run_low]].map(u16::from_be_bytes);
    let (run, list) = rest.split_at(usize::from(run));
    let refused = match is_image {
        0 => Some(NO_IMAGE),
        _ => names(list).err(),
    };
    if let Some(number) = refused {
        return number.to_string();
    }
    let (image, names) = (restored(run), names(list).expect("names"));
    let written = 2 * names.len();
    if usize::from(room) < written {
        return TOO_SHORT.to_string();
    }
    let digits = indexes(&image, &names)
        .iter()
        .map(|index| format!("{index:04x}"))
        .collect::<String>();
    format!("0 {written} {} {digits}", read(&stored(&image), &names))
}

fn restored(run: &[u8]) -> MetadataImage {
    let mut image = MetadataImage::new(Uuid::nil());
    let (_, mut place) = start(run).expect("a run starts with its offset");
    while place < run.len() {
        let (record, used) = next(&run[place..]).expect("a record");
        image.apply(&record);
        place += used;
    }
    image
}
