//! Compares histories with cuts: `--help` says what is compared.
//!
//!     cargo run --release --features images --bin compare_cuts -- 100 1

use std::process::ExitCode;

use differential::histories::compare_cuts;
use differential::images::Tally;
use differential::{Asked, Comparison};

const CUTS: Comparison = Comparison {
    name: "compare_cuts",
    drawn: "histories",
    count: 100,
    about: "Compares histories with cuts of the proved library with the reference, and, as\n\
            long as the theorem's premises hold, with the same histories uncut. Each ends\n\
            with Restores of bytes that no snapshot wrote.",
};

fn main() -> ExitCode {
    CUTS.run(|asked| {
        let mut tally = Tally::default();
        asked.each(|seed| compare_cuts(&mut tally, seed))?;
        let Asked { count, seed } = asked;
        Ok(format!(
            "{count} histories with cuts from seed {seed}, all equal\n{tally}"
        ))
    })
}
