//! Offset advances, within i64 and out of it.

use std::hint::black_box;
use std::panic::catch_unwind;

use super::build::{applied, offset_advance, shown};
use super::{CHECKED, Facts, UNCHECKED};

pub fn say(facts: &mut Facts) {
    let zero = applied(&[offset_advance("p", 0, 0)]);
    facts.say("an advance of 0, records", zero.to_records().len());
    for counts in [[5, -7], [i64::MIN, 0], [i64::MIN, i64::MAX]] {
        let sum = advanced(counts);
        facts.say(format!("advances of {counts:?}"), shown(sum));
    }
    for counts in [[i64::MAX, 1], [i64::MIN, -1]] {
        let outcome = match catch_unwind(|| advanced(counts)) {
            Ok(sum) => shown(sum),
            Err(_) => "panics".to_owned(),
        };
        facts.say(format!("{}advances of {counts:?}", mode()), outcome);
    }
}

fn advanced(counts: [i64; 2]) -> Option<i64> {
    let records = counts.map(|count| offset_advance("p", 0, count));
    applied(&records).partition_next_offset("p", 0)
}

/// Whether this build, and so the reference in it, checks overflow.
fn mode() -> &'static str {
    match catch_unwind(|| black_box(i64::MAX) + black_box(1)) {
        Ok(_) => UNCHECKED,
        Err(_) => CHECKED,
    }
}
