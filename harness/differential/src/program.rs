//! What the programs have in common: their help, their arguments, how they end.

use std::env;
use std::process::ExitCode;

/// Nothing, or the first difference in words.
pub type Compared = Result<(), String>;

/// The exit status on arguments that a program does not take.
const WRONG_ARGUMENT: u8 = 2;

/// What a program says of itself.
pub struct Help<'a> {
    /// Its name and its arguments.
    pub usage: &'a str,
    pub about: &'a str,
}

impl Help<'_> {
    /// Runs a program with what `read` makes of the arguments. Where that is
    /// nothing, says the usage on standard error; with `--help`, says all.
    pub fn run<T>(
        &self,
        read: impl FnOnce(&[&str]) -> Option<T>,
        program: impl FnOnce(T) -> ExitCode,
    ) -> ExitCode {
        let args = env::args_os().skip(1).map(|arg| arg.into_string().ok());
        let args: Option<Vec<String>> = args.collect();
        let args: Option<Vec<&str>> = args
            .as_ref()
            .map(|args| args.iter().map(String::as_str).collect());
        if args.as_ref().is_some_and(|args| args.contains(&"--help")) {
            println!("usage: {}\n\n{}", self.usage, self.about);
            return ExitCode::SUCCESS;
        }
        match args.and_then(|args| read(&args)) {
            Some(asked) => program(asked),
            None => {
                eprintln!("usage: {}", self.usage);
                ExitCode::from(WRONG_ARGUMENT)
            }
        }
    }
}

/// A program that compares what it draws.
pub struct Comparison<'a> {
    pub name: &'a str,
    /// What it draws.
    pub drawn: &'a str,
    /// How many of them, where the arguments do not say.
    pub count: u64,
    /// What is compared.
    pub about: &'a str,
}

impl Comparison<'_> {
    /// Prints what `compare` says of all, or else the first difference; the
    /// exit status tells which.
    pub fn run(&self, compare: impl FnOnce(&Asked) -> Result<String, String>) -> ExitCode {
        let Self { name, drawn, .. } = self;
        let usage = format!("{name} [{} [SEED]]", drawn.to_uppercase());
        let help = Help {
            usage: &usage,
            about: &self.help(),
        };
        let read = |args: &[&str]| Asked::of(args, self.count);
        help.run(read, |asked| match compare(&asked) {
            Ok(equal) => {
                print!("{equal}");
                ExitCode::SUCCESS
            }
            Err(difference) => {
                println!("{difference}");
                ExitCode::FAILURE
            }
        })
    }

    fn help(&self) -> String {
        let (drawn, count, about) = (self.drawn, self.count, self.about);
        format!(
            "{about}\n\n\
             As many {drawn} are drawn as the first argument says (default: {count}), from the\n\
             seed on that the second says (default: 1). Ends with 0 where all is equal, with 1\n\
             at the first difference, which is printed with the least input found to show one,\n\
             and with {WRONG_ARGUMENT} on a wrong argument."
        )
    }
}

/// How many are asked for, and from which seed on.
pub struct Asked {
    pub count: u64,
    pub seed: u64,
}

impl Asked {
    fn of(args: &[&str], default: u64) -> Option<Self> {
        let mut numbers = args.iter().map(|arg| arg.parse::<u64>().ok());
        let asked = Self {
            count: numbers.next().unwrap_or(Some(default))?,
            seed: numbers.next().unwrap_or(Some(1))?,
        };
        let ends = asked.seed.checked_add(asked.count).is_some();
        (ends && numbers.next().is_none()).then_some(asked)
    }

    /// Compares the history of each seed. A difference says its seed.
    pub fn each(&self, mut compare: impl FnMut(u64) -> Compared) -> Compared {
        for seed in self.seed..self.seed + self.count {
            compare(seed).map_err(|difference| format!("seed {seed}: {difference}"))?;
        }
        Ok(())
    }
}
