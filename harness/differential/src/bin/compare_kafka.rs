//! Compares Kafka's own record bytes: `--help` says what is compared.
//!
//!     cargo run --release --features images --bin compare_kafka -- 1000000 1

use std::process::ExitCode;

use differential::images::Tally;
use differential::kafka::{compare_bytes, compare_drawn, compare_named};
use differential::{Asked, Comparison};

const KAFKA: Comparison = Comparison {
    name: "compare_kafka",
    drawn: "inputs",
    count: 1_000_000,
    about: "Compares reading and writing of Kafka's own record bytes with the harness's codec:\n\
            on records with known answers; on the four examples with each byte as every byte\n\
            and cut at every place; and on drawn records, Kafka's with longer varints, tagged\n\
            fields and faults in their parts, ours of the four kinds and of all others, good,\n\
            cut and damaged. What is read is written back, and what is written is read back.\n\
            Outputs are empty, too short, just so and longer.",
};

fn main() -> ExitCode {
    KAFKA.run(|&Asked { count, seed }| {
        let mut tallies: [Tally; 3] = Default::default();
        let [named, bytes, drawn] = &mut tallies;
        compare_named(named)?;
        compare_bytes(bytes)?;
        compare_drawn(drawn, count, seed)?;
        Ok(format!(
            "known answers, all equal\n{named}\
             the examples, changed and cut, all equal\n{bytes}\
             {count} inputs from seed {seed}, all equal\n{drawn}"
        ))
    })
}
