//! Passes over images of one broker or partition: directories of every length
//! beside the replicas', and what a level may know of a broker.

use krabka_metadata::{BrokerRegistrationRecord, MetadataRecord, PartitionRecord};
use oracle::facts::build::{broker, id, partition, topic};
use oracle::image::MOST_CAPACITY;
use wire::encoded;

use super::{End, LEVELS, compare_levels};
use crate::histories::History;
use crate::images::{Compared, Tally};

/// The first level whose listing has no assignments, and so no 18.
const KNOWS_DIRECTORIES: i16 = 17;

struct Case {
    what: &'static str,
    records: Vec<MetadataRecord>,
    /// Where 18 stops the passes to the levels below 17 at the image's weight:
    /// filling directories is the one thing that makes an image heavier.
    stopped: Option<usize>,
}

/// Compares the passes to all levels over each of them.
pub fn compare_named_passes(tally: &mut Tally) -> Compared {
    cases().iter().try_for_each(|case| {
        case.compare(tally)
            .map_err(|difference| format!("{}: {difference}", case.what))
    })
}

impl Case {
    fn compare(&self, tally: &mut Tally) -> Compared {
        let history = History {
            capacity: MOST_CAPACITY,
            validated: false,
            inputs: self.records.iter().map(encoded).collect(),
        };
        let course = history.compare(&mut Tally::default())?;
        let ends = compare_levels(tally, &course)?;
        for (end, level) in ends.into_iter().zip(LEVELS) {
            let expected = match self.stopped {
                Some(given) if level < KNOWS_DIRECTORIES => End::Stopped(given),
                _ => End::Done,
            };
            if end != expected {
                return Err(format!("a pass to {level} ends as {end:?}"));
            }
        }
        Ok(())
    }
}

fn cases() -> Vec<Case> {
    let all: Vec<u64> = (1..=64).collect();
    let part = |replicas: &[u64], directories: &[u64]| vec![with(replicas, directories)];
    let case = |what, stopped, records| Case {
        what,
        records,
        stopped,
    };
    vec![
        case("nothing stored", None, Vec::new()),
        case("no directories", None, part(&[1, 2], &[])),
        case("no replicas", None, part(&[], &[5, 6])),
        case("as many directories", None, part(&[1, 2], &[5, 6])),
        case("more directories", None, part(&[1, 2], &[5, 6, 7, 8])),
        case("more directories, zeros", None, part(&[1, 2], &[0, 0, 7])),
        case("fewer directories", Some(0), part(&[1, 2, 3], &[5])),
        case("fewer directories, zeros", None, part(&[1, 2, 3], &[0, 0])),
        case("one of two is zero", None, part(&[1, 2], &[0, 6])),
        case("64 replicas, 1 directory", Some(0), part(&all, &[5])),
        case("64 replicas, 64 directories", None, part(&all, &all)),
        case("1 replica, 64 directories", None, part(&[9], &all)),
        case("with a topic", Some(0), {
            vec![topic("p", 1, 1, 2), with(&[1, 2], &[5])]
        }),
        case("a broker before it that makes room", None, {
            vec![of_broker(&[5], Some(&[6])), with(&[1, 2], &[5])]
        }),
        case("a broker before it, too little room", Some(1), {
            vec![of_broker(&[5], Some(&[6])), with(&[1, 2, 3, 4], &[5])]
        }),
        case("a broker's cordoned dirs", None, {
            vec![of_broker(&[], Some(&[6, 7]))]
        }),
        case("a broker's empty cordoned dirs", None, {
            vec![of_broker(&[], Some(&[]))]
        }),
        case("a broker's log dirs", None, vec![of_broker(&[5, 0], None)]),
        case("a broker without", None, vec![of_broker(&[], None)]),
    ]
}

fn with(replicas: &[u64], directories: &[u64]) -> MetadataRecord {
    MetadataRecord::V1Partition(PartitionRecord {
        directories: directories.iter().copied().map(id).collect(),
        ..partition("p", 0, replicas)
    })
}

fn of_broker(log_dirs: &[u64], cordoned: Option<&[u64]>) -> MetadataRecord {
    let ids = |numbers: &[u64]| numbers.iter().copied().map(id).collect();
    MetadataRecord::V1BrokerRegistration(BrokerRegistrationRecord {
        log_dirs: ids(log_dirs),
        cordoned_log_dirs: cordoned.map(ids),
        ..broker(1, 0)
    })
}
