//! The short count of one partition on the move, by its replicas, the adding
//! ones and its ISR.

use krabka_metadata::{MetadataRecord, PartitionRecord};
use oracle::facts::build::{nodes, partition};
use oracle::image::image;

use super::exact::shown;
use super::subject::Subject;
use super::{Compared, Tally};
use crate::short_count;

const CAPACITY: usize = 4_096;

pub fn compare_moves(tally: &mut Tally) -> Compared {
    let lists = lists();
    for replicas in &lists {
        for adding in &lists {
            for isr in &lists {
                compare(tally, replicas, adding, isr)?;
            }
        }
    }
    Ok(())
}

/// No node, one, three, as many as there may be, as many others, and half of
/// each.
fn lists() -> [Vec<u64>; 6] {
    [1..1, 1..2, 2..5, 1..65, 65..129, 33..97].map(Iterator::collect)
}

fn compare(tally: &mut Tally, replicas: &[u64], adding: &[u64], isr: &[u64]) -> Compared {
    let record = PartitionRecord {
        adding_replicas: nodes(adding),
        isr: nodes(isr),
        ..partition("p", 0, replicas)
    };
    let subject = Subject::of(&[MetadataRecord::V1Partition(record)]);
    let image = image(&subject.observed, CAPACITY).expect("one partition fits");
    let (answer, expected) = (short_count(&image), Ok(subject.observed.short));
    tally.count("short count, on the move", subject.observed.short);
    match answer == expected {
        true => Ok(()),
        false => Err(format!(
            "the short count is {answer:?}, not {expected:?}\nof the image of {}",
            shown(&image)
        )),
    }
}
