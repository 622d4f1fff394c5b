//! `show` and `make` undo each other: on the stored vectors, and on drawn records.

use std::env;
use std::fs::{self, File};
use std::io::{BufWriter, Write};
use std::path::PathBuf;

use jeghatuf::calls;

use crate::draw::Draw;
use crate::format::rows;
use crate::program::{assert_undone, path, run};

/// How many records are drawn, unless this variable says another number.
const DRAWN: usize = 20_000;
const VARIABLE: &str = "JEGHATUF_DRAWN";

/// The inputs of the repository's programs with stored outputs.
fn stored() -> Vec<PathBuf> {
    let crates = concat!(env!("CARGO_MANIFEST_DIR"), "/../../crates");
    let folders = fs::read_dir(crates)
        .unwrap()
        .map(|folder| folder.unwrap().path());
    let inputs = folders.map(|folder| folder.join("stdin"));
    let mut inputs: Vec<PathBuf> = inputs.filter(|input| input.is_file()).collect();
    inputs.sort();
    inputs
}

fn unhex(line: &str) -> Vec<u8> {
    let digits: Vec<u32> = line
        .chars()
        .filter_map(|digit| digit.to_digit(16))
        .collect();
    let pairs = digits.chunks_exact(2);
    pairs.map(|pair| (pair[0] << 4 | pair[1]) as u8).collect()
}

/// Every record that reads, from whichever byte of a stored line.
#[test]
fn all_stored_vectors_are_shown_and_made_again() {
    let mut records = Vec::new();
    let mut count = 0;
    for input in stored() {
        let text = fs::read_to_string(input).unwrap();
        for line in text.lines().filter(|line| !line.starts_with('#')) {
            let bytes = unhex(line);
            let mut at = 0;
            while at < bytes.len() {
                let used = calls::read(&bytes[at..]).unwrap_or(0);
                records.extend(&bytes[at..at + used]);
                count += usize::from(used > 0);
                at += used.max(1);
            }
        }
    }
    assert!(count > 7_000, "{count} records");
    fs::write(path("stored.records"), &records).unwrap();
    assert_undone("stored", &[]);
    fs::write(path("stored_json.records"), &records).unwrap();
    assert_undone("stored_json", &["--json"]);
}

fn drawn_into(name: &str, count: usize) {
    let mut draw = Draw::new(1, rows());
    let mut file = BufWriter::new(File::create(path(name)).unwrap());
    for _ in 0..count {
        let kind = 1 + draw.below(26);
        let record = draw.record(kind);
        assert_eq!(calls::read(&record), Ok(record.len()), "{record:?}");
        file.write_all(&record).unwrap();
    }
    file.flush().unwrap();
}

fn drawn() -> usize {
    let count = env::var(VARIABLE).ok();
    count.map_or(DRAWN, |count| count.parse().unwrap())
}

#[test]
fn drawn_records_are_shown_and_made_again() {
    drawn_into("drawn.records", drawn());
    assert_undone("drawn", &[]);
}

#[test]
fn drawn_records_are_shown_and_made_again_as_json() {
    drawn_into("drawn_json.records", drawn());
    assert_undone("drawn_json", &["--json"]);
}

/// Bytes of a line changed, taken away and put in: the line is refused with its number, or
/// makes a record that is shown and made again.
#[test]
fn damaged_lines_are_refused_or_make_records() {
    drawn_into("damaged.records", 26);
    for style in [&[][..], &["--json"]] {
        let words = [&["show", "-"], style].concat();
        run(&words, &path("damaged.records"), &path("damaged.lines"));
        let lines = fs::read(path("damaged.lines")).unwrap();
        let mut draw = Draw::new(2, rows());
        let (mut made, mut refused) = (0, 0);
        for line in lines
            .split(|byte| *byte == b'\n')
            .filter(|line| !line.is_empty())
        {
            for _ in 0..4 {
                fs::write(path("damaged.line"), damaged(&mut draw, line)).unwrap();
                let words = [&["make", "-"], style].concat();
                let ended = run(&words, &path("damaged.line"), &path("remade.records"));
                match ended.status {
                    Some(0) => {
                        assert_undone("remade", style);
                        made += 1;
                    }
                    Some(1) => {
                        assert!(ended.errors.contains(": line 1: "), "{}", ended.errors);
                        refused += 1;
                    }
                    other => panic!("{other:?}: {}", ended.errors),
                }
            }
        }
        assert!(made > 5 && refused > 30, "{made} made, {refused} refused");
    }
}

fn damaged(draw: &mut Draw, line: &[u8]) -> Vec<u8> {
    const PUT: &[u8] = b"\"\\ =,{}[]:0x-9aZ\x00\xff#";
    let mut line = line.to_vec();
    let at = draw.below(line.len());
    let byte = PUT[draw.below(PUT.len())];
    match draw.below(3) {
        0 => line[at] = byte,
        1 => line.insert(at, byte),
        _ => drop(line.remove(at)),
    }
    line
}
