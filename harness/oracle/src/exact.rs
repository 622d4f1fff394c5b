//! Whether a buffer is an image: 01's paragraph "Room", 02's on the log offset and
//! docs/FORMAT.md, clause by clause, on decoded records. It is made to be read beside them, not to be
//! fast, and has nothing from the proved test.

mod entries;
mod rules;

use crate::image::{FIXED_ROOM, MOST_CAPACITY};
use crate::layout::{HEAD_SIZE, MARK, OFFSET};
use entries::{Entry, entries};
use rules::{is_empty_group, is_stored};
use wire::NO_RECORD;

pub fn is_image(buffer: &[u8]) -> bool {
    let capacity = buffer.len();
    if !(FIXED_ROOM..=MOST_CAPACITY).contains(&capacity) {
        return false;
    }
    let Some(entries) = used_part(buffer).and_then(entries) else {
        return false;
    };
    let is_group = |entry: &Entry| is_empty_group(&entry.record);
    let tail = entries.iter().position(is_group).unwrap_or(entries.len());
    let (real, groups) = entries.split_at(tail);
    real.iter().all(|entry| is_stored(&entry.record))
        && groups.iter().all(is_group)
        && rules::ascend(real)
        && rules::ascend(groups)
        && rules::no_group_has_members(real, groups)
        && rules::counts_fit(real)
        && rules::ids_name_one_topic(real)
        && weight(&entries) <= capacity
}

/// The bytes of the entries, where the header is right, the log offset not below
/// -1, and zeros come after the used part.
fn used_part(buffer: &[u8]) -> Option<&[u8]> {
    let zero = |bytes: &[u8]| bytes.iter().all(|byte| *byte == 0);
    let used = u32::from_be_bytes(buffer[8..12].try_into().expect("four bytes"));
    let used = usize::try_from(used).expect("a number of four bytes");
    let entries = buffer.get(HEAD_SIZE..used)?;
    let offset = i64::from_be_bytes(buffer[OFFSET].try_into().expect("eight bytes"));
    let holds = buffer[..8] == MARK
        && zero(&buffer[12..16])
        && zero(&buffer[26..OFFSET.start])
        && offset >= NO_RECORD
        && zero(&buffer[used..]);
    holds.then_some(entries)
}

/// 144, plus the records other than kinds 8, 10 and 13, plus 8 for each topic.
fn weight(entries: &[Entry]) -> usize {
    FIXED_ROOM + entries.iter().map(rules::weight).sum::<usize>()
}
