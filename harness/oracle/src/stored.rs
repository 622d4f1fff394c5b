//! The two files of a program in crates/test_*: what it reads, and what it is
//! to say.

use std::fmt::Write;
use std::{env, fs};

use wire::hex;

pub struct Stored {
    pub stdin: String,
    pub stdout: String,
}

impl Stored {
    /// Nothing but the comment at the input's head.
    pub fn new(head: &str) -> Self {
        Self {
            stdin: head.to_owned(),
            stdout: String::new(),
        }
    }

    /// A comment on the next lines.
    pub fn title(&mut self, text: &str) {
        writeln!(self.stdin, "# {text}").expect("a string takes it");
    }

    /// A line of input, in hexadecimal, and the line that answers it.
    pub fn line(&mut self, input: &[u8], answer: &str) {
        writeln!(self.stdin, "{}", hex(input)).expect("a string takes it");
        writeln!(self.stdout, "{answer}").expect("a string takes it");
    }

    /// A line that begins with the number of an operation.
    pub fn push(&mut self, operation: u8, parts: &[&[u8]], answer: &str) {
        self.line(&[&[operation], &parts.concat()[..]].concat(), answer);
    }

    /// Writes both files into the folder that the first argument names.
    pub fn write(&self) {
        let folder = env::args().nth(1).expect("the program's folder");
        fs::write(format!("{folder}/stdin"), &self.stdin).expect("the folder is writable");
        fs::write(format!("{folder}/stdout"), &self.stdout).expect("the folder is writable");
    }
}
