//! What the program `test_replay` is held to is what the reference answers today.

use std::fs;

#[test]
fn the_stored_histories_are_the_references() {
    let stored = oracle::replay::stored();
    let file = |name| {
        let folder = concat!(env!("CARGO_MANIFEST_DIR"), "/../../crates/test_replay");
        fs::read_to_string(format!("{folder}/{name}")).expect("a file of crates/test_replay")
    };
    assert!(
        stored.stdin == file("stdin"),
        "crates/test_replay/stdin differs"
    );
    assert!(
        stored.stdout == file("stdout"),
        "crates/test_replay/stdout differs"
    );
}
