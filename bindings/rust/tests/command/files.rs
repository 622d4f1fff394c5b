//! Files that are longer than what is read at once, and damaged ones, to every command.

use std::fs;

use jeghatuf::{with_offset, without_offset};

use crate::draw::Draw;
use crate::format::rows;
use crate::program::{path, run};

/// The bytes of drawn records of the log: at least so many.
fn log(draw: &mut Draw, least: usize) -> Vec<u8> {
    let mut log = Vec::new();
    while log.len() < least {
        let kind = 1 + draw.below(25);
        log.extend(draw.record(kind));
    }
    log
}

/// A snapshot's two forms part by part are those of the whole, and so is the place of what
/// is refused.
#[test]
fn long_files_are_converted_as_a_whole() {
    let mut draw = Draw::new(3, rows());
    let old = log(&mut draw, 3_000_000);
    let new = with_offset(&old, 41).unwrap();
    fs::write(path("old"), &old).unwrap();
    let ended = run(&["with-offset", "41", "-"], &path("old"), &path("new"));
    assert_eq!((ended.status, ended.errors.as_str()), (Some(0), ""));
    assert!(fs::read(path("new")).unwrap() == new);
    let ended = run(&["without-offset", "-"], &path("new"), &path("again"));
    assert_eq!(ended.status, Some(0));
    assert_eq!(ended.errors, "jeghatuf: log offset: 41\n");
    assert!(fs::read(path("again")).unwrap() == old);

    let late = [&new[..], &new[..14], &old[..]].concat();
    for wrong in [&late[..], &new[..new.len() - 1]] {
        fs::write(path("wrong"), wrong).unwrap();
        let ended = run(&["without-offset", "-"], &path("wrong"), &path("none"));
        let place = without_offset(wrong).unwrap_err().place.unwrap();
        assert_eq!(ended.status, Some(1));
        let named = format!("jeghatuf: standard input: byte {place}: ");
        assert!(ended.errors.starts_with(&named), "{}", ended.errors);
    }
}

/// A record of Kafka's with a tagged field that is longer than what is read at once.
#[test]
fn long_tagged_fields_are_skipped() {
    const SIZE: u32 = 3_000_000;
    let varint = [
        SIZE as u8 | 128,
        (SIZE >> 7) as u8 | 128,
        (SIZE >> 14) as u8 | 128,
        (SIZE >> 21) as u8,
    ];
    let start = [&[1, 12, 0, 2, b'a', 0, 1, 1, 0], &varint[..]].concat();
    let tagged = [start, vec![7; SIZE as usize]].concat();
    let plain = [1, 12, 0, 2, b'b', 0, 2, 0];
    fs::write(path("tagged"), [&tagged[..], &plain].concat()).unwrap();
    let ended = run(&["from-kafka", "-"], &path("tagged"), &path("untagged"));
    assert_eq!((ended.status, ended.errors.as_str()), (Some(0), ""));
    let lines = fs::read_to_string(path("untagged")).unwrap();
    assert_eq!(
        lines,
        "FeatureLevel name=\"a\" level=1\nFeatureLevel name=\"b\" level=2\n"
    );
    fs::write(path("tagged"), &tagged[..tagged.len() - 1]).unwrap();
    let ended = run(&["from-kafka", "-"], &path("tagged"), &path("untagged"));
    assert_eq!(ended.status, Some(1));
    assert!(ended.errors.contains(": byte 0: 2, "), "{}", ended.errors);
}

/// Each command with words that it takes; the file is standard input.
const COMMANDS: &[&[&str]] = &[
    &["show", "-"],
    &["make", "-"],
    &["make", "--json", "-"],
    &["snapshot", "-"],
    &["restore", "-"],
    &["topic", "a", "-"],
    &["partition", "a", "0", "-"],
    &["broker", "1", "-"],
    &["freeze", "a", "-"],
    &["freeze", "--log", "a", "-"],
    &["throttle", "1", "-"],
    &["short", "-"],
    &["offset", "-", "--at", "1000"],
    &["diff", "-", "/dev/null"],
    &["downgrade", "16", "-"],
    &["with-offset", "1", "-"],
    &["without-offset", "-"],
    &["view", "", "-"],
    &["compare", "/dev/null", "-"],
    &["from-kafka", "-"],
    &["to-kafka", "-", "--skip"],
    &["histories", "-"],
];

#[test]
fn damaged_files_are_refused_or_answered() {
    let mut draw = Draw::new(4, rows());
    for number in 0..12 {
        let mut bytes = log(&mut draw, 300);
        if number % 2 == 0 {
            bytes = with_offset(&bytes, 7).unwrap();
        }
        for _ in 0..number / 2 {
            let at = draw.below(bytes.len());
            bytes[at] = draw.number() as u8;
        }
        bytes.truncate(bytes.len() - draw.below(3) * number);
        fs::write(path("some"), &bytes).unwrap();
        for words in COMMANDS {
            for style in [&[][..], &["--json"]] {
                let words = match words.contains(&"--json") {
                    true => words.to_vec(),
                    false => [words, style].concat(),
                };
                let ended = run(&words, &path("some"), &path("answer"));
                let is_good = matches!(ended.status, Some(0..=2));
                assert!(is_good, "{words:?}: {:?}, {}", ended.status, ended.errors);
                assert!(
                    !ended.errors.contains("panicked"),
                    "{words:?}: {}",
                    ended.errors
                );
            }
        }
    }
}
