//! Times every operation beside the Rust: `--help` says what is written where.
//!
//!     cargo run --release --features images --bin benchmarks -- [--dry | FOLDER]

use std::fs;
use std::path::{Path, PathBuf};
use std::process::ExitCode;

use differential::Help;
use differential::benchmarks::{Figures, Page};

const HELP: Help = Help {
    usage: "benchmarks [--dry | FOLDER]",
    about: "Times every operation of the proved library beside the Rust, on full images of\n\
            four sizes, and writes the figures into the repository's docs: the tables into\n\
            BENCHMARKS.md, between its two marks, and the plot as benchmarks.svg. FOLDER is\n\
            another folder than docs; with --dry the tables are printed and nothing is written.\n\
            Takes about two minutes. Ends with 1 where a file cannot be read or written, and\n\
            with 2 on a wrong argument.",
};

/// Where the figures go.
enum To {
    Output,
    Folder(PathBuf),
}

fn main() -> ExitCode {
    HELP.run(to, |to| match told(to) {
        Ok(()) => ExitCode::SUCCESS,
        Err(reason) => {
            eprintln!("{reason}");
            ExitCode::FAILURE
        }
    })
}

fn to(args: &[&str]) -> Option<To> {
    match args {
        ["--dry"] => Some(To::Output),
        [] => Some(To::Folder(docs())),
        [folder] if !folder.starts_with('-') => Some(To::Folder(folder.into())),
        _ => None,
    }
}

/// The repository's docs.
fn docs() -> PathBuf {
    Path::new(env!("CARGO_MANIFEST_DIR")).join("../../docs")
}

/// The page is looked at first: measuring takes a while.
fn told(to: To) -> Result<(), String> {
    let To::Folder(folder) = to else {
        print!("{}", Figures::measure().tables());
        return Ok(());
    };
    let page = Page::open(&folder.join("BENCHMARKS.md"))?;
    let plot = folder.join("benchmarks.svg");
    let figures = Figures::measure();
    page.write(&figures.tables())?;
    fs::write(&plot, figures.plot()).map_err(|reason| format!("{}: {reason}", plot.display()))
}
