//! What was compared, and how often each answer was given.

use std::collections::BTreeMap;
use std::fmt;

#[derive(Default)]
pub struct Tally {
    counts: BTreeMap<&'static str, BTreeMap<String, u64>>,
}

impl Tally {
    pub fn count(&mut self, what: &'static str, answer: impl ToString) {
        let answers = self.counts.entry(what).or_default();
        *answers.entry(answer.to_string()).or_default() += 1;
    }
}

impl fmt::Display for Tally {
    fn fmt(&self, f: &mut fmt::Formatter<'_>) -> fmt::Result {
        for (what, answers) in &self.counts {
            let all: u64 = answers.values().sum();
            write!(f, "{what}: {all}")?;
            for (answer, count) in answers {
                write!(f, "; {answer}: {count}")?;
            }
            writeln!(f)?;
        }
        Ok(())
    }
}
