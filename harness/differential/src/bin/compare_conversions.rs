//! Compares a snapshot's two forms: `--help` says what is compared.
//!
//!     cargo run --release --features images --bin compare_conversions -- 100 1

use std::process::ExitCode;

use differential::histories::{compare_conversions, compare_named_conversions};
use differential::images::Tally;
use differential::{Asked, Comparison};

const CONVERSIONS: Comparison = Comparison {
    name: "compare_conversions",
    drawn: "histories",
    count: 100,
    about: "Converts every snapshot of drawn histories to the old form, without the log\n\
            offset, and back, and gives it and what it becomes to both operations, at\n\
            offsets from one end to the other and into outputs that are long enough, just\n\
            so and one byte too short. Each history ends with damaged and other runs. What\n\
            is expected the harness says by its own reader.",
};

fn main() -> ExitCode {
    CONVERSIONS.run(|asked| {
        let mut tally = Tally::default();
        compare_named_conversions(&mut tally)?;
        asked.each(|seed| compare_conversions(&mut tally, seed))?;
        let Asked { count, seed } = asked;
        Ok(format!(
            "{count} histories from seed {seed}, all equal\n{tally}"
        ))
    })
}
