//! The stored input of the program `crates/test_replay` and its expected output: 01's
//! cases that are checked by hand, then generated histories at several
//! capacities, with cuts, snapshots, lookups and downgrades, and what the
//! reference makes of them. Verdicts are the reference's `validate`, images its
//! contents in the harness's own layout, snapshots its `to_records` in 01's
//! order, restarts its `from_records`. Read's refusals, 17, 18 and 19 are 01's
//! rules and the log offset with 21 and 22 is 02's, which the reference does not
//! have.

mod lines;
mod plan;
mod run;

use crate::stored::Stored;
use lines::Lines;
use plan::Plan;

const OPEN: u8 = 0;
const STEP: u8 = 1;
const STEP_ALWAYS: u8 = 2;
const CUT: u8 = 3;
const RESTORE: u8 = 4;
const SNAPSHOT: u8 = 5;
const FREEZE: u8 = 6;
const THROTTLE: u8 = 7;
const DOWNGRADE: u8 = 8;
const PARTITION: u8 = 9;
const LOG_OFFSET: u8 = 10;

const HISTORIES: u64 = 72;

const HEAD: &str = "\
# 01's cases that are checked by hand, and histories, in hexadecimal, one operation to a line; made by harness/oracle/src/replay.rs
# The first byte says which: src/main.rt has the list. A line with a '#' names the next ones.
";

/// The two files, made anew.
pub fn stored() -> Stored {
    let mut lines = Lines::new(HEAD);
    lines.checked_by_hand();
    for number in 0..HISTORIES {
        let plan = Plan::of(number);
        let inputs = plan.inputs();
        let capacity = plan.capacity(&inputs);
        lines.history(&plan, capacity, &inputs);
    }
    lines.check();
    lines.stored
}
