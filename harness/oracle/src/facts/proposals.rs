//! Which changes of a stored break-glass proposal `validate` takes.

use krabka_metadata::{BreakGlassProposalRecord, MetadataRecord};

use super::Facts;
use super::build::{self, applied, approval, id};
use crate::verdict::verdict;

pub fn say(facts: &mut Facts) {
    approvals(facts);
    settled(facts);
    deleted(facts);
}

/// A proposal approved by these principals.
fn proposal(principals: &[&str]) -> BreakGlassProposalRecord {
    BreakGlassProposalRecord {
        target: "p".to_owned(),
        proposer: "carol".to_owned(),
        approvals: principals.iter().copied().map(approval).collect(),
        ..build::proposal(id(1))
    }
}

fn judged(stored: BreakGlassProposalRecord, given: BreakGlassProposalRecord) -> u8 {
    let image = applied(&[MetadataRecord::V1BreakGlassProposal(stored)]);
    verdict(&image, &MetadataRecord::V1BreakGlassProposal(given))
}

fn approvals(facts: &mut Facts) {
    let lists: [&[&str]; 6] = [
        &["a", "b"],
        &["a", "b", "c"],
        &["a"],
        &[],
        &["b", "a"],
        &["a", "c"],
    ];
    for list in lists {
        let what = format!("validate approvals {list:?} on stored [\"a\", \"b\"]");
        facts.say(what, judged(proposal(&["a", "b"]), proposal(list)));
    }
    let mut other = proposal(&["a", "b"]);
    other.approvals[0].signature = vec![1];
    facts.say(
        "validate another signature",
        judged(proposal(&["a", "b"]), other),
    );
}

fn settled(facts: &mut Facts) {
    let cases = [(0, false), (5, false), (-1, false), (0, true), (5, true)];
    for (consumed_at_ms, withdrawn) in cases {
        let stored = BreakGlassProposalRecord {
            consumed_at_ms,
            withdrawn,
            ..proposal(&["a"])
        };
        let what = format!("stored consumed at {consumed_at_ms}, withdrawn {withdrawn}");
        facts.say(
            format!("validate a change, {what}"),
            judged(stored.clone(), proposal(&["a"])),
        );
        facts.say(
            format!("validate other approvals, {what}"),
            judged(stored, proposal(&[])),
        );
    }
}

fn deleted(facts: &mut Facts) {
    let delete = MetadataRecord::V1DeleteBreakGlassProposal(id(1));
    facts.say(
        "validate deletion of an unknown proposal",
        verdict(&applied(&[]), &delete),
    );
    let stored = MetadataRecord::V1BreakGlassProposal(proposal(&["a"]));
    let records = applied(&[stored, delete]).to_records().len();
    facts.say("records after a proposal's deletion", records);
}
