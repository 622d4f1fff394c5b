//! Recordings with known standings, each beside each, and capacities that are
//! none or unequal.

use oracle::facts::build::{feature_level, kraft_version, producer_ids};
use oracle::image::{FIXED_ROOM, MOST_CAPACITY};
use oracle::recordings::parting;
use oracle::verdict::NO_IMAGE;
use wire::{encoded, encoded_offset};

use super::pairs::{Pair, without_effect};
use super::{DIRT, NOT_SET, Recording, compare_pair, compare_runs};
use crate::compare;
use crate::images::{Compared, Tally};

/// What a level weighs, and an empty group of a broker's configs.
const LEVEL: usize = 12;
const GROUP: usize = 17;

/// Compares each run beside each, where there is room for all records and where
/// it runs out.
pub fn compare_named_recordings(tally: &mut Tally) -> Compared {
    let rooms = [0, LEVEL, GROUP, GROUP + LEVEL - 1, GROUP + LEVEL, 2 * LEVEL];
    let tight = rooms.map(|room| FIXED_ROOM + room);
    let runs = runs();
    compare_all(tally, &[&tight[..], &[MOST_CAPACITY]].concat(), &runs)?;
    compare_lists(&runs[1], &runs[2])?;
    compare_capacities(tally, &runs[1])
}

/// Nothing; one level, two, one twice, and another second one; torn at several
/// places, a log offset second, first and torn, and kinds that there are not;
/// records that no snapshot shows before a level; and two kraft versions.
fn runs() -> Vec<Vec<u8>> {
    let level = |name| encoded(&feature_level(name, 1));
    let (a, b, offset) = (level("a"), level("b"), encoded_offset(5));
    let kraft = |version| encoded(&kraft_version(version));
    let [nothing, group] = without_effect();
    let none = encoded(&producer_ids(7, 3, 0));
    let runs: Vec<Vec<&[u8]>> = vec![
        vec![],
        vec![&a],
        vec![&a, &b],
        vec![&a, &a],
        vec![&a, &a, &b],
        vec![&b, &a],
        vec![&a, &b[..2]],
        vec![&a, &b[..5]],
        vec![&a[..5]],
        vec![&a, &offset],
        vec![&offset, &a],
        vec![&a, &offset[..9]],
        vec![&a, &[0, 0, 0]],
        vec![&a, &[27, 0, 0]],
        vec![&a, &[11, 0, 0]],
        vec![&nothing, &a],
        vec![&none, &a],
        vec![&group, &a],
        vec![&nothing, &group, &a],
        vec![&group, &nothing, &a],
    ];
    let levels = vec![
        kraft(1),
        [kraft(1), kraft(2)].concat(),
        [kraft(3), kraft(2)].concat(),
    ];
    runs.iter().map(|run| run.concat()).chain(levels).collect()
}

fn compare_all(tally: &mut Tally, capacities: &[usize], runs: &[Vec<u8>]) -> Compared {
    for (place, one) in runs.iter().enumerate() {
        for other in &runs[place..] {
            let pair = Pair {
                what: "known runs",
                one: one.clone(),
                other: other.clone(),
                agrees: one == other,
            };
            compare_pair(tally, capacities, &pair)?;
        }
    }
    Ok(())
}

/// Lists of none, one and two places for the count.
fn compare_lists(one: &[u8], other: &[u8]) -> Compared {
    let [one, other] = [one, other].map(Recording::of);
    let expected = parting(&one.course, &other.course, MOST_CAPACITY);
    (0..=2).try_for_each(|places| {
        let mut list = vec![NOT_SET; places];
        compare_runs(MOST_CAPACITY, [&one, &other], &expected, &mut list)
    })
}

/// Capacities that are none, or unequal: 1, and all as it was.
fn compare_capacities(tally: &mut Tally, run: &[u8]) -> Compared {
    let (least, most) = (FIXED_ROOM, MOST_CAPACITY);
    let none = [0, least - 1, most + 1];
    let unequal = [(least, least + 1), (least, most), (most - 1, most)];
    let with_none = none
        .iter()
        .flat_map(|none| [(*none, *none), (*none, least), (*none, most)]);
    for (first, second) in unequal.into_iter().chain(with_none) {
        compare_refused(tally, [first, second], run)?;
        compare_refused(tally, [second, first], run)?;
    }
    Ok(())
}

fn compare_refused(tally: &mut Tally, capacities: [usize; 2], run: &[u8]) -> Compared {
    let [one, other] = capacities;
    let before = [vec![DIRT[0]; one], vec![DIRT[1]; other]];
    let (mut buffers, mut value) = (before.clone(), [NOT_SET]);
    let [first, second] = &mut buffers;
    let answer = compare(first, second, run, run, &mut value);
    tally.count("capacities", NO_IMAGE);
    match answer == Err(NO_IMAGE) && buffers == before && value == [NOT_SET] {
        true => Ok(()),
        false => Err(format!("capacities {one} and {other}: {answer:?}")),
    }
}
