//! Compares what viewers get: `--help` says what is compared.
//!
//!     cargo run --release --features images --bin compare_views -- 1000 1

use std::process::ExitCode;

use differential::histories::compare_views;
use differential::images::Tally;
use differential::{Asked, Comparison};

const VIEWS: Comparison = Comparison {
    name: "compare_views",
    drawn: "histories",
    count: 1_000,
    about: "Compares a viewer's snapshot and its lookups of topics, partitions and freezes with\n\
            the reference's records, chosen by name, on the images of drawn histories and for\n\
            drawn lists of prefixes, by visible, invisible, absent and bad names; on lists that\n\
            are refused; and on each image beside those of the same history without the records\n\
            that do not count, and with others in their place, at another capacity: where two\n\
            agree on what counts, numbers and outputs are equal.",
};

fn main() -> ExitCode {
    VIEWS.run(|asked| {
        let mut drawn = Tally::default();
        asked.each(|seed| compare_views(&mut drawn, seed))?;
        let Asked { count, seed } = asked;
        Ok(format!(
            "{count} histories from seed {seed}, all equal\n{drawn}"
        ))
    })
}
