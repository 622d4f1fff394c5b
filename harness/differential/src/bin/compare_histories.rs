//! Compares Validate and Apply along histories: `--help` says what is compared.
//!
//!     cargo run --release --features images --bin compare_histories -- 100 1

use std::process::ExitCode;

use differential::histories::{
    compare_drawn, compare_drawn_numbers, compare_named_numbers, compare_no_image, compare_offsets,
    compare_short,
};
use differential::images::Tally;
use differential::{Asked, Comparison};

const HISTORIES: Comparison = Comparison {
    name: "compare_histories",
    drawn: "histories",
    count: 100,
    about: "Compares Validate and Apply of the proved library with the reference along whole\n\
            histories: some at named log offsets, all short ones over sets of records that meet\n\
            at the same keys, then drawn ones, each at four capacities; and on buffers that are\n\
            no image. One Apply in eight is tried again at log offsets that are not later. The\n\
            short ones come from the library, each by its number, which is held to a counter of\n\
            the harness's own; at their ends Snapshot, Restore and all lookups are compared.",
};

fn main() -> ExitCode {
    HISTORIES.run(|asked| {
        let (mut short, mut drawn) = (Tally::default(), Tally::default());
        let (mut offsets, mut numbers) = (Tally::default(), Tally::default());
        compare_offsets(&mut offsets)?;
        compare_named_numbers(&mut numbers)?;
        compare_no_image(&mut short)?;
        compare_short(&mut short)?;
        asked.each(|seed| {
            compare_drawn_numbers(&mut numbers, seed)?;
            compare_drawn(&mut drawn, seed)
        })?;
        let Asked { count, seed } = asked;
        Ok(format!(
            "named log offsets, all equal\n{offsets}\
             named and drawn numbers of short histories, all equal\n{numbers}\
             all short histories, all equal\n{short}\
             {count} histories from seed {seed}, at four capacities each, all equal\n{drawn}"
        ))
    })
}
