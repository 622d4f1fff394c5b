//! The stored lines of the programs of crates, and what they say to them.

use std::fs;

/// The bytes of each line that a program is given, beside its answer.
pub fn stored_lines(program: &str) -> Vec<(Vec<u8>, String)> {
    let (stdin, stdout) = (file(program, "stdin"), file(program, "stdout"));
    let lines = stdin.lines().filter(|line| !line.starts_with('#'));
    let lines: Vec<&str> = lines.filter(|line| !line.is_empty()).collect();
    assert_eq!(lines.len(), stdout.lines().count());
    let answers = stdout.lines().map(str::to_owned);
    lines.into_iter().map(bytes).zip(answers).collect()
}

fn file(program: &str, name: &str) -> String {
    let crates = concat!(env!("CARGO_MANIFEST_DIR"), "/../../crates");
    fs::read_to_string(format!("{crates}/{program}/{name}")).expect("a file of a program")
}

fn bytes(line: &str) -> Vec<u8> {
    let digits: Vec<u32> = line
        .chars()
        .filter_map(|digit| digit.to_digit(16))
        .collect();
    let pairs = digits.chunks(2).map(|pair| pair[0] * 16 + pair[1]);
    pairs
        .map(|byte| u8::try_from(byte).expect("two digits"))
        .collect()
}
