//! How a command ends, and lines on standard error.

use std::fmt::Display;
use std::io::{self, IsTerminal, Write};
use std::process::ExitCode;

use jeghatuf::{Refusal, Stopped};

use crate::progress::CLEAR;

/// Why a command ends early.
pub enum Failure {
    /// Words that are not understood, or a file that cannot be read or written: status 2.
    Unusable(String),
    /// Something was refused: status 1.
    Refused(String),
    /// Whoever reads the output wants no more of it. That is no fault.
    Closed,
}

/// How a command ends that has given its answer.
#[derive(Clone, Copy, PartialEq, Eq)]
pub enum Status {
    Good,
    /// Something was refused on the way, or differs: status 1.
    Refused,
}

impl Status {
    pub fn and(self, other: Status) -> Status {
        match self {
            Status::Good => other,
            Status::Refused => Status::Refused,
        }
    }

    /// Refused where something is so.
    pub fn refused_if(is: bool) -> Status {
        if is { Status::Refused } else { Status::Good }
    }
}

pub type Outcome = Result<Status, Failure>;

impl From<Status> for ExitCode {
    fn from(status: Status) -> Self {
        match status {
            Status::Good => ExitCode::SUCCESS,
            Status::Refused => ExitCode::from(1),
        }
    }
}

impl Failure {
    pub fn unusable(what: impl Display, fault: impl Display) -> Self {
        Failure::Unusable(format!("{what}: {fault}"))
    }

    /// A fault of writing to standard output.
    pub fn of_output(fault: &io::Error) -> Self {
        match fault.kind() {
            io::ErrorKind::BrokenPipe => Failure::Closed,
            _ => Failure::unusable("standard output", fault),
        }
    }

    /// Says what there is to say, and gives the exit status.
    pub fn end(self) -> ExitCode {
        match self {
            Failure::Unusable(line) => {
                say(&line);
                ExitCode::from(2)
            }
            Failure::Refused(line) => {
                say(&line);
                ExitCode::from(1)
            }
            Failure::Closed => ExitCode::SUCCESS,
        }
    }

    /// A refusal about a file.
    pub fn refused(file: &str, refusal: Refusal) -> Self {
        Failure::Refused(format!("{file}: {}", numbered(refusal)))
    }

    /// A refusal of a record of a file, at its place.
    pub fn stopped(file: &str, stopped: Stopped) -> Self {
        match stopped.place {
            Some(place) => Self::at(file, place as u64, stopped.refusal),
            None => Self::refused(file, stopped.refusal),
        }
    }

    pub fn at(file: &str, place: u64, refusal: Refusal) -> Self {
        Failure::Refused(format!("{file}: byte {place}: {}", numbered(refusal)))
    }
}

/// A refusal with its number: `7, an unknown topic or partition`.
pub fn numbered(refusal: Refusal) -> String {
    format!("{}, {refusal}", refusal.number())
}

/// A line on standard error. Where that cannot be written to, there is nobody to tell.
pub fn say(line: &str) {
    let mut errors = io::stderr().lock();
    // a line that says how far the work is may stand there
    let clear = if errors.is_terminal() { CLEAR } else { "" };
    let _ = writeln!(errors, "{clear}jeghatuf: {line}");
}
