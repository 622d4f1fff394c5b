//! An image's bytes from its header's numbers and its entries. The entries may
//! be any byte strings, so that bad images are laid out here too.

use std::ops::Range;

pub const MARK: [u8; 8] = *b"KRABKA\x00\x02";
pub const HEAD_SIZE: usize = 64;
/// Where the log offset stands.
pub const OFFSET: Range<usize> = 56..64;

#[derive(Debug, Clone, PartialEq, Eq)]
pub struct Layout {
    pub epoch: i64,
    pub kraft: u16,
    /// The log offset.
    pub offset: i64,
    /// The stored entries, then the empty groups.
    pub entries: Vec<Vec<u8>>,
}

impl Layout {
    /// The used length, the header's included.
    pub fn used(&self) -> usize {
        HEAD_SIZE + self.entries.iter().map(Vec::len).sum::<usize>()
    }

    /// Header, entries and zeros. Nothing is checked.
    ///
    /// # Panics
    ///
    /// Where the capacity is below the used length.
    pub fn bytes(&self, capacity: usize) -> Vec<u8> {
        assert!(self.used() <= capacity, "entries that fit the bytes");
        let mut bytes = self.header();
        bytes.extend(self.entries.iter().flatten());
        bytes.resize(capacity, 0);
        bytes
    }

    fn header(&self) -> Vec<u8> {
        let used = u32::try_from(self.used()).expect("a used length of four bytes");
        let mut header = MARK.to_vec();
        header.extend(used.to_be_bytes());
        header.extend([0; 4]);
        header.extend(self.epoch.to_be_bytes());
        header.extend(self.kraft.to_be_bytes());
        header.resize(OFFSET.start, 0);
        header.extend(self.offset.to_be_bytes());
        header
    }
}

/// An image as it was laid out before 02's log offset: version 1, and zeros
/// where the offset stands now.
pub fn former(image: &[u8]) -> Vec<u8> {
    let mut bytes = image.to_vec();
    bytes[MARK.len() - 1] = 1;
    bytes[OFFSET].fill(0);
    bytes
}
