//! Stand-in for `krabka_voters`: a node id is a u64. The voter record is
//! outside the port, so the voter set is always empty.

#[derive(Debug, Clone, Copy, Default, PartialEq, Eq, PartialOrd, Ord, Hash)]
pub struct NodeId(pub u64);

#[derive(Debug, Clone, Default, PartialEq, Eq)]
pub struct VoterSet;

impl VoterSet {
    pub fn is_empty(&self) -> bool {
        true
    }
}
