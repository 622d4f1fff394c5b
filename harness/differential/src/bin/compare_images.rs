//! Compares the operations on images: `--help` says what is compared.
//!
//!     cargo run --release --features images --bin compare_images -- 100 1

use std::process::ExitCode;

use differential::images::{
    Tally, compare_cases, compare_history, compare_listing, compare_moves, compare_names,
    compare_open, compare_random,
};
use differential::{Asked, Compared, Comparison};

/// The random buffers for each history.
const RANDOM: u64 = 20;

const IMAGES: Comparison = Comparison {
    name: "compare_images",
    drawn: "histories",
    count: 100,
    about: "Compares Open, the exact test, Validate, the lookups, Snapshot and the listing\n\
            for a downgrade of the proved library with the harness's own answers and the\n\
            reference's images: on named cases, on topics by their names, on the images of\n\
            drawn histories and buffers near them, and on random buffers.",
};

fn main() -> ExitCode {
    IMAGES.run(|asked| {
        let mut tally = Tally::default();
        compare(&mut tally, asked)?;
        let Asked { count, seed } = asked;
        Ok(format!(
            "{count} histories from seed {seed}, all equal\n{tally}"
        ))
    })
}

fn compare(tally: &mut Tally, asked: &Asked) -> Compared {
    compare_open(tally, asked.seed)?;
    compare_cases(tally)?;
    compare_listing(tally)?;
    compare_moves(tally)?;
    compare_names(tally)?;
    asked.each(|seed| {
        compare_history(tally, seed)?;
        (0..RANDOM).try_for_each(|draw| compare_random(tally, seed * RANDOM + draw))
    })
}
