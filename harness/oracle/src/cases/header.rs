//! The buffer's length, the header and the zeros.

use super::samples::all_kinds;
use super::{Cases, ROOMY, applied};
use crate::layout::{Layout, OFFSET};
use wire::NO_RECORD;

const FRESH: Layout = Layout {
    epoch: -1,
    kraft: 0,
    offset: NO_RECORD,
    entries: Vec::new(),
};

pub fn add(cases: &mut Cases) {
    capacities(cases);
    zeros(cases);
    fixed_parts(cases);
    offsets(cases);
    used_lengths(cases);
    junk(cases);
}

fn capacities(cases: &mut Cases) {
    for capacity in [144, 145, 4_096, 65_535, 65_536] {
        cases.image(format!("fresh at {capacity}"), FRESH.bytes(capacity));
    }
    for capacity in [64, 100, 127, 128, 143, 65_537, 70_000, 131_072] {
        cases.no_image(format!("fresh at {capacity}"), FRESH.bytes(capacity));
    }
    let full = applied(&all_kinds());
    cases.image("all kinds at 65,536", full.bytes(65_536));
    cases.no_image("all kinds at 65,537", full.bytes(65_537));
    for length in [0, 1, 7, 8, 11, 12, 16, 24, 26, 56, 63] {
        let cut = FRESH.bytes(144)[..length].to_vec();
        cases.no_image(format!("a header cut at {length}"), cut);
    }
}

fn zeros(cases: &mut Cases) {
    for length in [0, 1, 64, 128, 143, 144, 4_096, 65_536, 65_537] {
        cases.no_image(format!("{length} zeros"), vec![0; length]);
    }
}

fn changed(mut bytes: Vec<u8>, at: usize, value: u8) -> Vec<u8> {
    bytes[at] = value;
    bytes
}

fn fixed_parts(cases: &mut Cases) {
    for layout in [FRESH, applied(&all_kinds())] {
        let good = layout.roomy();
        for at in [0, 5, 6, 7, 12, 15, 26, 44, 55] {
            let bytes = changed(good.clone(), at, good[at] ^ 2);
            cases.no_image(format!("another byte at {at} of the header"), bytes);
        }
        for (epoch, kraft) in [(i64::MIN, 0), (i64::MAX, u16::MAX), (-1, 1), (0, 0)] {
            let other = Layout {
                epoch,
                kraft,
                ..layout.clone()
            };
            let name = format!("epoch {epoch} and kraft version {kraft}");
            cases.image(name, other.roomy());
        }
    }
}

/// Log offsets from -1 on, and those below; no other byte of the header changes.
fn offsets(cases: &mut Cases) {
    for layout in [FRESH, applied(&all_kinds())] {
        let mut at = |offset: i64| {
            let other = Layout {
                offset,
                ..layout.clone()
            };
            let name = format!("log offset {offset}");
            cases.push(name, other.roomy(), offset >= NO_RECORD);
        };
        for offset in [NO_RECORD, 0, 1, 255, 1 << 32, i64::MAX - 1, i64::MAX] {
            at(offset);
        }
        for offset in [-2, -256, -257, -(1 << 32), i64::MIN + 1, i64::MIN] {
            at(offset);
        }
        for place in OFFSET {
            let negative = changed(layout.roomy(), OFFSET.start, 0xff);
            let bytes = changed(negative, place, 0xfe);
            cases.no_image(format!("a log offset below -1 in byte {place}"), bytes);
        }
    }
}

fn with_used(layout: &Layout, used: usize) -> Vec<u8> {
    let mut bytes = layout.roomy();
    let used = u32::try_from(used).expect("four bytes");
    bytes[8..12].copy_from_slice(&used.to_be_bytes());
    bytes
}

fn used_lengths(cases: &mut Cases) {
    for layout in [FRESH, applied(&all_kinds())] {
        let used = layout.used();
        let last = layout.entries.last().map_or(3, Vec::len);
        let lies = [
            0,
            1,
            63,
            used - 1,
            used - last,
            used + 1,
            used + 3,
            ROOMY - 1,
            ROOMY,
            ROOMY + 1,
            65_536,
            1 << 31,
            (1 << 32) - 1,
        ];
        for lie in lies {
            let bytes = with_used(&layout, lie);
            cases.no_image(format!("used length {lie} where {used} are used"), bytes);
        }
    }
}

fn junk(cases: &mut Cases) {
    for layout in [FRESH, applied(&all_kinds())] {
        let used = layout.used();
        for at in [used, used + 1, used + 100, ROOMY - 2, ROOMY - 1] {
            let bytes = changed(layout.roomy(), at, 1);
            cases.no_image(format!("junk at {at} after the used {used}"), bytes);
        }
    }
    let mut behind = applied(&all_kinds()).roomy();
    let used = applied(&all_kinds()).used();
    behind[used..used + 12].copy_from_slice(&[11, 0, 9, 1, 0, 1, b'z', 2, 0, 2, 0, 1]);
    cases.no_image("a whole record after the used part", behind);
}
