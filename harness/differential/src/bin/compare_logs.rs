//! Compares the freeze from a run of records: `--help` says what is compared.
//!
//!     cargo run --release --features images --bin compare_logs -- 1000 1

use std::process::ExitCode;

use differential::histories::{compare_logs, compare_named_logs};
use differential::images::Tally;
use differential::{Asked, Comparison};

const LOGS: Comparison = Comparison {
    name: "compare_logs",
    drawn: "histories",
    count: 1_000,
    about: "Compares the freeze of a name from a run of records with the reference's\n\
            topic_freeze of the image after them: on every run of up to three freezes and\n\
            thaws, on runs with known faults, and on the records and the snapshots of drawn\n\
            histories, cut, damaged, shuffled and with kind 26 at any place; and where a run\n\
            restores with the lookup on the restored image.",
};

fn main() -> ExitCode {
    LOGS.run(|asked| {
        let (mut named, mut drawn) = (Tally::default(), Tally::default());
        compare_named_logs(&mut named)?;
        asked.each(|seed| compare_logs(&mut drawn, seed))?;
        let Asked { count, seed } = asked;
        Ok(format!(
            "short runs and known faults, all equal\n{named}\
             {count} histories from seed {seed}, all equal\n{drawn}"
        ))
    })
}
