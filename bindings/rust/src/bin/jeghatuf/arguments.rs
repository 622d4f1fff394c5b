//! The words of the command line.

use std::ffi::{OsStr, OsString};

use crate::failure::Failure;
use crate::spell::Style;
use jeghatuf::{Image, LEAST_CAPACITY, MOST_CAPACITY};

/// What may stand among the words.
#[derive(Clone, Copy, PartialEq, Eq)]
pub enum Choice {
    Json,
    At,
    Output,
    Force,
    Log,
    Id,
    Skip,
}

impl Choice {
    const ALL: [Choice; 7] = [
        Choice::Json,
        Choice::At,
        Choice::Output,
        Choice::Force,
        Choice::Log,
        Choice::Id,
        Choice::Skip,
    ];

    pub fn name(self) -> &'static str {
        match self {
            Choice::Json => "--json",
            Choice::At => "--at",
            Choice::Output => "-o",
            Choice::Force => "--force",
            Choice::Log => "--log",
            Choice::Id => "--id",
            Choice::Skip => "--skip",
        }
    }

    fn of(word: &str) -> Option<Self> {
        let word = if word == "--output" { "-o" } else { word };
        Self::ALL.into_iter().find(|choice| choice.name() == word)
    }
}

/// The words behind the command's name.
pub struct Arguments {
    command: &'static str,
    usage: &'static str,
    pub words: Vec<OsString>,
    choices: Vec<Choice>,
    capacity: usize,
    output: Option<OsString>,
    pub is_help: bool,
}

impl Arguments {
    /// Takes the words, of a command that has these choices.
    pub fn take(
        command: &'static str,
        usage: &'static str,
        allowed: &[Choice],
        mut words: impl Iterator<Item = OsString>,
    ) -> Result<Self, Failure> {
        let mut arguments = Self {
            command,
            usage,
            words: Vec::new(),
            choices: Vec::new(),
            capacity: MOST_CAPACITY,
            output: None,
            is_help: false,
        };
        while let Some(word) = words.next() {
            match word.to_str() {
                Some("--") => {
                    arguments.words.extend(words);
                    break;
                }
                Some("--help" | "-h") => arguments.is_help = true,
                Some(text) if is_choice(text) => arguments.choose(text, allowed, &mut words)?,
                _ => arguments.words.push(word),
            }
        }
        if arguments.has(Choice::Force) && arguments.output.is_none() {
            return Err(arguments.wrong("--force is for -o FILE"));
        }
        Ok(arguments)
    }

    fn choose(
        &mut self,
        word: &str,
        allowed: &[Choice],
        words: &mut impl Iterator<Item = OsString>,
    ) -> Result<(), Failure> {
        let (name, value) = match word.split_once('=') {
            Some((name, value)) => (name, Some(OsString::from(value))),
            None => (word, None),
        };
        let choice = Choice::of(name).filter(|choice| allowed.contains(choice));
        let choice = choice.ok_or_else(|| self.wrong(&format!("{word} is no option of it")))?;
        if self.has(choice) {
            return Err(self.wrong(&format!("{name} stands twice")));
        }
        self.choices.push(choice);
        let needs_value = matches!(choice, Choice::At | Choice::Output);
        if value.is_some() && !needs_value {
            return Err(self.wrong(&format!("{name} takes no value")));
        }
        if needs_value {
            let value = value.or_else(|| words.next());
            let value = value.ok_or_else(|| self.wrong(&format!("{name} needs a value")))?;
            self.value_of(choice, value)?;
        }
        Ok(())
    }

    fn value_of(&mut self, choice: Choice, value: OsString) -> Result<(), Failure> {
        if choice == Choice::Output {
            self.output = Some(value);
            return Ok(());
        }
        let capacity = value.to_str().and_then(|text| text.parse().ok());
        let capacity = capacity.filter(|capacity| Image::open(*capacity).is_ok());
        self.capacity = capacity.ok_or_else(|| {
            let value = crate::words::plain(&value.to_string_lossy());
            let (least, most) = (LEAST_CAPACITY, MOST_CAPACITY);
            self.wrong(&format!(
                "--at {value}: a capacity is {least} to {most} bytes"
            ))
        })?;
        Ok(())
    }

    pub fn has(&self, choice: Choice) -> bool {
        self.choices.contains(&choice)
    }

    pub fn style(&self) -> Style {
        if self.has(Choice::Json) {
            Style::Json
        } else {
            Style::Text
        }
    }

    pub fn is_json(&self) -> bool {
        self.has(Choice::Json)
    }

    pub fn capacity(&self) -> usize {
        self.capacity
    }

    /// Whether bytes are to go to standard output.
    pub fn is_piped(&self) -> bool {
        self.output.as_deref() == Some(OsStr::new("-"))
    }

    pub fn output(&self) -> Option<&OsStr> {
        self.output.as_deref()
    }

    /// The words, if they are so many.
    pub fn exactly<const N: usize>(&self) -> Result<[&OsStr; N], Failure> {
        let words: Vec<&OsStr> = self.words.iter().map(OsString::as_os_str).collect();
        let found = words_of(words.len());
        let usage = self.usage;
        words
            .try_into()
            .map_err(|_| self.wrong(&format!("{usage} expected, not {found}")))
    }

    /// A number among the words.
    pub fn number<T: std::str::FromStr>(&self, word: &OsStr, what: &str) -> Result<T, Failure> {
        let number = word.to_str().and_then(|text| text.parse().ok());
        number.ok_or_else(|| {
            let word = crate::words::plain(&word.to_string_lossy());
            self.wrong(&format!("{word} is no {what}"))
        })
    }

    /// Words that are not understood.
    pub fn wrong(&self, fault: &str) -> Failure {
        let command = self.command;
        Failure::Unusable(format!("{command}: {fault}; see jeghatuf {command} --help"))
    }
}

fn words_of(count: usize) -> String {
    crate::words::count(count as u64, "word", "words")
}

/// Whether a word is an option: not `-` alone, which is standard input, and no number.
fn is_choice(word: &str) -> bool {
    let mut bytes = word.bytes();
    bytes.next() == Some(b'-') && bytes.next().is_some_and(|byte| !byte.is_ascii_digit())
}
