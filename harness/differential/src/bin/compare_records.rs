//! Compares Read and Write: `--help` says what is compared.
//!
//!     cargo run --release --bin compare_records -- 1000000 1

use std::process::ExitCode;

use differential::{Asked, Compared, Comparison, Inputs, least_lists, log_offsets, replica_lists};
use oracle::shrink::least_input;
use wire::{Lists, hex};

const RECORDS: Comparison = Comparison {
    name: "compare_records",
    drawn: "inputs",
    count: 1_000_000,
    about: "Compares Read and Write of the proved library with the harness's own, on records\n\
            of drawn histories and on damaged copies of them, on replica lists with and\n\
            without a repeat, and on log offsets. Each input is read, and its fields are written.",
};

/// How often each number was the answer.
type Counts = [u64; 256];

fn main() -> ExitCode {
    RECORDS.run(|&Asked { count, seed }| {
        let mut inputs = Inputs::new(seed);
        let (mut read, mut written) = ([0; 256], [0; 256]);
        for _ in 0..count {
            let input = inputs.draw();
            compare_read(&mut read, &input).map_err(|difference| {
                let compare = |input: &[u8]| compare_read(&mut [0; 256], input);
                least_input(difference, &input, compare).1
            })?;
            let (lists, out) = inputs.lists(&input);
            compare_write(&mut written, &lists, &out).map_err(|difference| {
                let compare = |lists: &Lists, out: &[u8]| compare_write(&mut [0; 256], lists, out);
                least_lists(difference, &lists, &out, compare)
            })?;
        }
        let (read, written) = (told("Read", &read), told("Write", &written));
        let lists = compare_known(&replica_lists())?;
        let offsets = compare_known(&log_offsets())?;
        Ok(format!(
            "{count} inputs, all equal\n{read}{written}\
             replica lists, all equal\n{lists}\
             log offsets, all equal\n{offsets}"
        ))
    })
}

/// Read of each record has the number that is known of it, and so has Write: it
/// comes before 19, which an output that is a byte too short has of the others.
fn compare_known(records: &[(Vec<u8>, u8)]) -> Result<String, String> {
    let (mut read, mut written) = ([0; 256], [0; 256]);
    for (record, number) in records {
        if wire::read(record).err().unwrap_or(0) != *number {
            return Err(format!("{number} is known of {record:02x?}"));
        }
        compare_read(&mut read, record)?;
        let lists = Lists::of(record);
        for room in [record.len(), record.len() - 1, 0] {
            compare_write(&mut written, &lists, &vec![7; room])?;
        }
    }
    Ok(told("Read", &read) + &told("Write", &written))
}

/// Counts the number of an answer.
fn count(counts: &mut Counts, answer: Result<usize, u8>) {
    counts[answer.map_or_else(usize::from, |_| 0)] += 1;
}

fn compare_read(counts: &mut Counts, input: &[u8]) -> Compared {
    let (answer, expected) = (differential::read(input), wire::read(input));
    count(counts, expected);
    match answer == expected {
        true => Ok(()),
        false => Err(format!(
            "Read says {answer:?}, not {expected:?}, of {}",
            hex(input)
        )),
    }
}

fn compare_write(counts: &mut Counts, lists: &Lists, out: &[u8]) -> Compared {
    let (mut ours, mut theirs) = (out.to_vec(), out.to_vec());
    let answer = differential::write(lists, &mut ours);
    let expected = wire::write(lists, &mut theirs);
    count(counts, expected);
    match answer == expected && ours == theirs {
        true => Ok(()),
        false => Err(format!(
            "Write says {answer:?}, not {expected:?}, or other bytes, of {lists:02x?} into {}",
            out.len()
        )),
    }
}

fn told(operation: &str, counts: &Counts) -> String {
    let answered = counts.iter().enumerate().filter(|(_, count)| **count > 0);
    answered
        .map(|(number, count)| format!("{operation} answered {number}: {count}\n"))
        .collect()
}
