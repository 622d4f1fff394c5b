//! Compares passes of a downgrade: `--help` says what is compared.
//!
//!     cargo run --release --features images --bin compare_passes -- 100 1

use std::process::ExitCode;

use differential::histories::{compare_named_passes, compare_passes};
use differential::images::Tally;
use differential::{Asked, Comparison};

const PASSES: Comparison = Comparison {
    name: "compare_passes",
    drawn: "histories",
    count: 100,
    about: "Gives the records that Downgrade lists to Apply, one after the other, on the\n\
            proved library and on the reference: at eight levels, over named images and the\n\
            images of drawn histories, with room for the pass and at a capacity that is the\n\
            image's weight. Compares Validate, Apply and every byte after each record, that\n\
            what is neither a broker nor a partition has not moved, and that nothing is\n\
            listed after the pass.",
};

fn main() -> ExitCode {
    PASSES.run(|asked| {
        let (mut named, mut drawn) = (Tally::default(), Tally::default());
        compare_named_passes(&mut named)?;
        asked.each(|seed| compare_passes(&mut drawn, seed))?;
        let Asked { count, seed } = asked;
        Ok(format!(
            "named images, all equal\n{named}\
             {count} histories from seed {seed}, all equal\n{drawn}"
        ))
    })
}
