//! What is held against the reference. 02: "Quotas held against the Rust name
//! each type once." The Rust keeps entities of one type as they are given.

use std::collections::BTreeSet;

use krabka_metadata::MetadataRecord;
use wire::{decode, read};

/// Whether no quota names a type twice among the records at the start of the
/// bytes, up to what is no record.
pub fn is_held(run: &[u8]) -> bool {
    let mut rest = run;
    while let Ok(used) = read(rest) {
        if decode(rest).is_ok_and(|(record, _)| names_a_type_twice(&record)) {
            return false;
        }
        rest = &rest[used..];
    }
    true
}

fn names_a_type_twice(record: &MetadataRecord) -> bool {
    let MetadataRecord::V1ClientQuota(quota) = record else {
        return false;
    };
    let mut types = BTreeSet::new();
    let mut names = quota.entity.iter().map(|entity| &entity.entity_type);
    !names.all(|name| types.insert(name))
}
