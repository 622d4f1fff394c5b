//! A listing that is ten times the image, and every kind of throttle that there
//! is not.

use krabka_metadata::{MetadataRecord, PartitionRecord};
use oracle::downgrade::downgrade;
use oracle::facts::build::{id, partition};
use oracle::image::{MOST_CAPACITY, image};

use super::subject::Subject;
use super::{Compared, Tally, rules};

/// The most replicas that a partition has, and the longest name.
const REPLICAS: u64 = 64;
const NAME: usize = 255;

/// Partitions of the longest name with the most replicas, as many as an image
/// takes: each slot has a record of its own in the listing.
pub fn compare_listing(tally: &mut Tally) -> Compared {
    let all = (1..).map(|count| Subject::of(&partitions(count)));
    let fit = all.take_while(|subject| subject.weight <= MOST_CAPACITY);
    let subject = fit.last().expect("one partition fits");
    let image = image(&subject.observed, MOST_CAPACITY).expect("contents that fit");
    let listed = wire::encoded_all(&downgrade(&subject.image, i16::MIN)).len();
    assert!(listed > 10 * subject.layout.used(), "a long listing");
    rules::compare_no_kinds(tally, &image)?;
    rules::compare(tally, &subject, &image)
}

fn partitions(count: i32) -> Vec<MetadataRecord> {
    let replicas: Vec<u64> = (1..=REPLICAS).collect();
    let name = "n".repeat(NAME);
    let partition = |number| PartitionRecord {
        isr: Vec::new(),
        directories: (1..=REPLICAS).map(id).collect(),
        ..partition(&name, number, &replicas)
    };
    (0..count)
        .map(|number| MetadataRecord::V1Partition(partition(number)))
        .collect()
}
