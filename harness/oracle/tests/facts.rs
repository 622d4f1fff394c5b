//! Holds the facts about the reference to their stored lines. `REMAKE=1 cargo
//! test -p oracle --test facts` stores what this build gives; lines that only
//! the other kind of build gives, with or without overflow checks, are kept.

use std::{env, fs};

use oracle::facts::{CHECKED, UNCHECKED, lines};

const STORED: &str = concat!(env!("CARGO_MANIFEST_DIR"), "/tests/facts.txt");

fn depends_on_checks(line: &str) -> bool {
    line.starts_with(CHECKED) || line.starts_with(UNCHECKED)
}

/// This build's lines, and the stored ones that only the other build gives.
fn with_other_build(observed: &[String], stored: &str) -> String {
    let mut all: Vec<&str> = observed.iter().map(String::as_str).collect();
    all.retain(|line| !depends_on_checks(line));
    for mode in [CHECKED, UNCHECKED] {
        let mut of_mode: Vec<&str> = observed.iter().map(String::as_str).collect();
        of_mode.retain(|line| line.starts_with(mode));
        if of_mode.is_empty() {
            of_mode = stored
                .lines()
                .filter(|line| line.starts_with(mode))
                .collect();
        }
        all.extend(of_mode);
    }
    all.join("\n") + "\n"
}

#[test]
fn facts_are_as_stored() {
    let observed = lines();
    let stored = fs::read_to_string(STORED).unwrap_or_default();
    let expected = with_other_build(&observed, &stored);
    if env::var_os("REMAKE").is_some() {
        fs::write(STORED, &expected).expect("the stored file is writable");
        return;
    }
    for (place, (now, then)) in expected.lines().zip(stored.lines()).enumerate() {
        assert_eq!(now, then, "line {} of {STORED}", place + 1);
    }
    assert_eq!(expected.lines().count(), stored.lines().count(), "lines");
    for mode in [CHECKED, UNCHECKED] {
        assert!(stored.contains(mode), "a line that begins with {mode:?}");
    }
}
