//! How answers are given: lines, JSON, or the bytes of records.

use crate::arguments::{Arguments, Choice};
use crate::failure::Failure;
use crate::json::Json;
use crate::output::Output;
use crate::show;
use crate::source::pieces;
use crate::spell::Style;

/// Prints a line.
pub fn line(text: &str) -> Result<(), Failure> {
    lines([text.as_bytes()])
}

/// Prints a line of JSON.
pub fn json(value: Json) -> Result<(), Failure> {
    lines([value.into_bytes()])
}

/// Prints lines, as long as somebody reads them.
pub fn lines<T: AsRef<[u8]>>(lines: impl IntoIterator<Item = T>) -> Result<(), Failure> {
    let mut out = Output::standard();
    for line in lines {
        out.bytes.extend_from_slice(line.as_ref());
        out.bytes.push(b'\n');
        match out.spill() {
            Err(Failure::Closed) => return Ok(()),
            spilled => spilled?,
        }
    }
    out.finish()
}

/// The output of a command whose answer is bytes.
pub fn bytes_output(arguments: &Arguments) -> Result<Output, Failure> {
    match arguments.output() {
        Some(word) => Output::file(word, arguments.has(Choice::Force)),
        None => Output::for_bytes(),
    }
}

/// Where records go: as lines, or as bytes.
pub struct Records {
    out: Output,
    style: Option<Style>,
}

impl Records {
    /// As bytes to what `-o` names, else as lines.
    pub fn lines(arguments: &Arguments) -> Result<Self, Failure> {
        let (out, style) = match arguments.output() {
            Some(_) => (bytes_output(arguments)?, None),
            None => (Output::standard(), Some(arguments.style())),
        };
        Ok(Self { out, style })
    }

    /// As bytes, to what `-o` names or to standard output; as lines of JSON where these are
    /// asked for and no file is.
    pub fn bytes(arguments: &Arguments) -> Result<Self, Failure> {
        if arguments.is_json() {
            return Self::lines(arguments);
        }
        let out = bytes_output(arguments)?;
        Ok(Self { out, style: None })
    }

    /// Whether standard output is free for words.
    pub fn is_beside(&self) -> bool {
        !self.out.is_standard()
    }

    /// Puts records that the library wrote.
    pub fn put(&mut self, run: &[u8]) -> Result<(), Failure> {
        match self.style {
            None => {
                self.out.bytes.extend_from_slice(run);
                self.out.spill()
            }
            Some(style) => {
                for record in pieces(run) {
                    show::line(&mut self.out, style, record)?;
                }
                Ok(())
            }
        }
    }

    /// Writes what was put before a fault, where it goes to standard output.
    pub fn flush(&mut self) -> Result<(), Failure> {
        self.out.flush()
    }

    pub fn finish(self) -> Result<(), Failure> {
        self.out.finish()
    }
}
