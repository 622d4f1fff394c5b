//! `jeghatuf`: the records, logs and snapshots of a cluster's image on the command line, over
//! the proved library.

#![forbid(unsafe_code)]

mod answer;
mod arguments;
mod bytes;
mod commands;
mod comparing;
mod differences;
mod explain;
mod failure;
mod histories;
mod input;
mod json;
mod kafka;
mod lookups;
mod make;
mod output;
mod parse;
mod progress;
mod run;
mod runs;
mod show;
mod source;
mod spell;
mod table;
mod values;
mod words;

use std::env;
use std::ffi::OsString;
use std::process::ExitCode;

use arguments::Arguments;
use commands::Command;
use failure::{Failure, Outcome, Status};

fn main() -> ExitCode {
    let words: Vec<OsString> = env::args_os().skip(1).collect();
    // the library's calls need more stack than a thread may have
    let outcome = jeghatuf::with_stack(|| run(words.into_iter()));
    let outcome = outcome.unwrap_or_else(|fault| Err(Failure::unusable("no thread", fault)));
    outcome.map_or_else(Failure::end, ExitCode::from)
}

fn run(mut words: impl Iterator<Item = OsString>) -> Outcome {
    let Some(word) = words.next() else {
        return Err(Failure::Unusable("no command; see jeghatuf --help".into()));
    };
    let word = word.to_string_lossy().into_owned();
    match word.as_str() {
        "--help" | "-h" | "help" => help(words.next()),
        "--version" | "-V" => {
            answer::line(concat!("jeghatuf ", env!("CARGO_PKG_VERSION")))?;
            Ok(Status::Good)
        }
        name => {
            let command = Command::named(name).ok_or_else(|| unknown(name))?;
            let arguments = Arguments::take(command.name, command.words, command.choices, words)?;
            match arguments.is_help {
                true => command.help(),
                false => (command.run)(&arguments),
            }
        }
    }
}

fn unknown(word: &str) -> Failure {
    commands::unknown(&words::plain(word))
}

/// Help of the whole, or of a command.
fn help(word: Option<OsString>) -> Outcome {
    let Some(word) = word else {
        return commands::help();
    };
    let word = word.to_string_lossy();
    let command = Command::named(&word).ok_or_else(|| unknown(&word))?;
    command.help()
}
