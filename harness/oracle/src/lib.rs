//! The reference's answers in the scope paper's (01's) terms: what an image
//! holds, in 01's order, and its bytes; whether bytes are an image; verdicts as
//! 01's numbers; the listing for a downgrade; the freezes of a list of names;
//! where two recordings part; the numbers of short histories; generated
//! histories; the least of an input that shows a difference; the stored histories of
//! crates/test_replay; facts.

pub mod cases;
pub mod downgrade;
pub mod exact;
pub mod facts;
pub mod freeze_list;
pub mod generate;
pub mod held;
pub mod image;
pub mod kind;
pub mod layout;
pub mod names;
pub mod observe;
pub mod order;
pub mod recordings;
pub mod replay;
pub mod short_history;
pub mod shrink;
pub mod snapshot;
pub mod stored;
pub mod verdict;
