//! The program, run.

use std::fs::{self, File};
use std::path::{Path, PathBuf};
use std::process::{Command, Stdio};

/// A file of a test's own.
pub fn path(name: &str) -> PathBuf {
    Path::new(env!("CARGO_TARGET_TMPDIR")).join(name)
}

/// How a run ended.
pub struct Ended {
    pub status: Option<i32>,
    pub errors: String,
}

/// Runs the program on words, from a file and into one.
pub fn run(words: &[&str], input: &Path, output: &Path) -> Ended {
    let ended = Command::new(env!("CARGO_BIN_EXE_jeghatuf"))
        .args(words)
        .stdin(File::open(input).unwrap())
        .stdout(File::create(output).unwrap())
        .stderr(Stdio::piped())
        .output()
        .unwrap();
    Ended {
        status: ended.status.code(),
        errors: String::from_utf8(ended.stderr).unwrap(),
    }
}

/// Shows a file of records, makes records of the lines, and holds them to the file.
pub fn assert_undone(name: &str, extra: &[&str]) {
    let (records, lines, again) = (
        path(&format!("{name}.records")),
        path(&format!("{name}.lines")),
        path(&format!("{name}.again")),
    );
    for (command, input, output) in [("show", &records, &lines), ("make", &lines, &again)] {
        let words = [&[command, "-"], extra].concat();
        let ended = run(&words, input, output);
        assert_eq!(
            (ended.status, ended.errors.as_str()),
            (Some(0), ""),
            "{command}"
        );
    }
    assert!(fs::read(&records).unwrap() == fs::read(&again).unwrap());
}
