//! The page that the tables stand in, between two marks.

use std::fs;
use std::path::{Path, PathBuf};

const START: &str = "<!-- figures: written by harness/differential, benchmarks -->\n";
const END: &str = "<!-- end of figures -->\n";

pub struct Page {
    file: PathBuf,
    /// Up to the first mark.
    before: String,
    /// From the second one on.
    after: String,
}

impl Page {
    pub fn open(file: &Path) -> Result<Self, String> {
        let text = fs::read_to_string(file).map_err(|reason| told(file, &reason))?;
        let parts = text.split_once(START).and_then(|(before, rest)| {
            let (_, after) = rest.split_once(END)?;
            Some((before, after))
        });
        let (before, after) = parts.ok_or_else(|| {
            let (start, end) = (START.trim_end(), END.trim_end());
            told(file, &format!("no line {start} with a line {end} below it"))
        })?;
        Ok(Self {
            file: file.to_owned(),
            before: format!("{before}{START}"),
            after: format!("{END}{after}"),
        })
    }

    /// Writes the page with these figures.
    pub fn write(&self, figures: &str) -> Result<(), String> {
        let text = format!("{}\n{figures}\n{}", self.before, self.after);
        fs::write(&self.file, text).map_err(|reason| told(&self.file, &reason))
    }
}

fn told(file: &Path, reason: &dyn std::fmt::Display) -> String {
    format!("{}: {reason}", file.display())
}
