//! Facts about the reference, each a line of text. The stored lines are what
//! the port's rules are held to where 01 leaves the answer to the Rust.

mod brokers;
pub mod build;
mod features;
mod freezes;
mod marked;
mod offsets;
mod partitions;
mod proposals;
mod quotas;
mod throttle;
mod topics;

use std::fmt::Display;

/// How lines begin that only a build with overflow checks gives.
pub const CHECKED: &str = "with overflow checks, ";
/// How lines begin that only a build without overflow checks gives.
pub const UNCHECKED: &str = "without overflow checks, ";

#[derive(Default)]
struct Facts {
    lines: Vec<String>,
}

impl Facts {
    fn say(&mut self, what: impl Display, value: impl Display) {
        self.lines.push(format!("{what}: {value}"));
    }
}

/// Every fact of this build. The ones that depend on overflow checks are last.
pub fn lines() -> Vec<String> {
    let mut facts = Facts::default();
    marked::say(&mut facts);
    throttle::say(&mut facts);
    topics::say(&mut facts);
    partitions::say(&mut facts);
    features::say(&mut facts);
    brokers::say(&mut facts);
    quotas::say(&mut facts);
    freezes::say(&mut facts);
    proposals::say(&mut facts);
    offsets::say(&mut facts);
    facts.lines
}
