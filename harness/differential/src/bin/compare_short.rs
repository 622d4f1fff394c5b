//! Compares all short histories to the end: `--help` says what is compared.
//!
//!     cargo run --release --features images --bin compare_short -- 24 1

use std::process::ExitCode;

use differential::histories::compare_short_ends;
use differential::images::Tally;
use differential::{Asked, Comparison};

const SHORT: Comparison = Comparison {
    name: "compare_short",
    drawn: "sets",
    count: 24,
    about: "Compares all histories of up to four records over sets of eight that meet at the\n\
            same keys, of which there are 24, with the reference at five capacities: Validate\n\
            and Apply of each record, and at the end of each history Snapshot, Restore and all\n\
            lookups. The histories come from the library, each by its number. The same steps\n\
            are in compare_histories, which asks at the end once for each image.",
};

fn main() -> ExitCode {
    SHORT.run(|asked| {
        let mut short = Tally::default();
        asked.each(|set| compare_short_ends(&mut short, set))?;
        let Asked { count, seed } = asked;
        Ok(format!("{count} sets from {seed} on, all equal\n{short}"))
    })
}
