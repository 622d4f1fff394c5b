//! Compares where two recordings part: `--help` says what is compared.
//!
//!     cargo run --release --features images --bin compare_recordings -- 1000 1

use std::process::ExitCode;

use differential::histories::{compare_named_recordings, compare_recordings};
use differential::images::Tally;
use differential::{Asked, Comparison};

const RECORDINGS: Comparison = Comparison {
    name: "compare_recordings",
    drawn: "histories",
    count: 1_000,
    about: "Compares where two recordings part with the reference's course of each run: on\n\
            known pairs and capacities, and on pairs from drawn histories, equal and with one\n\
            record replaced, dropped, doubled, swapped, damaged or taken for the last, cut\n\
            anywhere, with a log offset put in, with torn records, with others that take much\n\
            room, that no snapshot shows, and that have the same effect, each at all room and\n\
            where room runs out. Held are the answer, the count and both buffers.",
};

fn main() -> ExitCode {
    RECORDINGS.run(|asked| {
        let (mut named, mut drawn) = (Tally::default(), Tally::default());
        compare_named_recordings(&mut named)?;
        asked.each(|seed| compare_recordings(&mut drawn, seed))?;
        let Asked { count, seed } = asked;
        Ok(format!(
            "known pairs, all equal\n{named}\
             {count} histories from seed {seed}, all equal\n{drawn}"
        ))
    })
}
