//! Compares quotas in several spellings: `--help` says what is compared.
//!
//!     cargo run --release --features images --bin compare_quotas -- 2000 1

use std::process::ExitCode;

use differential::histories::{compare_named_quotas, compare_quotas};
use differential::images::Tally;
use differential::{Asked, Comparison};

const QUOTAS: Comparison = Comparison {
    name: "compare_quotas",
    drawn: "lists",
    count: 2_000,
    about: "Compares quotas whose entities are given in several orders: every order of a\n\
            list leaves the buffer of the list as the harness sorts it, by type, then name;\n\
            a buffer with another order is no image; runs of records and snapshots from\n\
            before, with several spellings of a quota, restore to one group with the last\n\
            record's values.",
};

fn main() -> ExitCode {
    QUOTAS.run(|asked| {
        let mut tally = Tally::default();
        compare_named_quotas(&mut tally)?;
        asked.each(|seed| compare_quotas(&mut tally, seed))?;
        let Asked { count, seed } = asked;
        Ok(format!(
            "{count} lists from seed {seed}, all equal\n{tally}"
        ))
    })
}
