//! Kafka's own record bytes: the stored lines of the program `test_kafka` are the
//! harness's.

mod vectors;

use vectors::stored_lines;
use wire::{TOO_SHORT, hex, kafka};

#[test]
fn the_stored_lines_are_the_harnesss() {
    for (line, expected) in stored_lines("test_kafka") {
        assert_eq!(answer(&line), expected, "{}", hex(&line));
    }
}

/// What the program says to a line: the way, the output's bytes, and a record of
/// Kafka's that is read, or one of ours that is written.
fn answer(line: &[u8]) -> String {
    let (&[way, high, low], input) = line.split_first_chunk().expect("a line's head");
    let room = usize::from(u16::from_be_bytes([high, low]));
    let written = match way {
        0 => kafka::read(input).map(|(record, used)| (record, format!(" {used}"))),
        _ => kafka::write(input).map(|bytes| (bytes, String::new())),
    };
    match written {
        Ok((bytes, _)) if bytes.len() > room => TOO_SHORT.to_string(),
        Ok((bytes, used)) => format!("0 {}{used} {}", bytes.len(), hex(&bytes)),
        Err(number) => number.to_string(),
    }
}
