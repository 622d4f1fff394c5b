//! Compares the freezes of lists of names: `--help` says what is compared.
//!
//!     cargo run --release --features images --bin compare_freezes -- 100 1

use std::process::ExitCode;

use differential::histories::{compare_freezes, compare_named_freezes, compare_short_freezes};
use differential::images::Tally;
use differential::{Asked, Comparison};

const FREEZES: Comparison = Comparison {
    name: "compare_freezes",
    drawn: "histories",
    count: 100,
    about: "Compares the freezes of lists of names with the reference's topic_freeze of each\n\
            name and its place among the stored freezes, how many were read with the rule in\n\
            the harness's words, and each name with its single lookup: all lists of up to\n\
            three names out of seven on every set out of eight freezes, lists with known\n\
            answers, and lists near the scopes of drawn histories, good and damaged, behind\n\
            some steps and at the end; also on buffers that are no image, and into outputs\n\
            that are too short.",
};

fn main() -> ExitCode {
    FREEZES.run(|asked| {
        let mut tallies: [Tally; 3] = Default::default();
        let [short, named, drawn] = &mut tallies;
        compare_short_freezes(short)?;
        compare_named_freezes(named)?;
        asked.each(|seed| compare_freezes(drawn, seed))?;
        let Asked { count, seed } = asked;
        Ok(format!(
            "short lists, all equal\n{short}\
             lists with known answers, all equal\n{named}\
             {count} histories from seed {seed}, all equal\n{drawn}"
        ))
    })
}
