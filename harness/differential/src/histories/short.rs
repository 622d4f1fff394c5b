//! All short histories over small sets of records that meet at the same keys,
//! each drawn through the operation that writes the history under a number.

mod beside;
mod numbers;
mod records;
mod sets;

pub use numbers::{compare_drawn_numbers, compare_named_numbers};

use oracle::image::{FIXED_ROOM, weight};
use oracle::short_history::LONGEST;
use wire::encoded;

use super::reference::Reference;
use super::runs;
use crate::images::{Compared, Tally};
use beside::{Beside, Ends};
use sets::{Set, eights};

/// Compares all histories of up to four records, over each of the sets. Every
/// record is applied, also where Validate refuses it: a validated history is
/// one of these, with the refused records left out. Of those that end with the
/// same image the first is asked the questions at the end.
pub fn compare_short(tally: &mut Tally) -> Compared {
    let compare = |set| compare_set(tally, &set, Ends::New);
    eights().into_iter().try_for_each(compare)
}

/// The same of one set, by its number from 1 on, with the questions at the end of
/// each history. Behind the last set comes the first again.
pub fn compare_short_ends(tally: &mut Tally, number: u64) -> Compared {
    let sets = eights();
    let place = number.saturating_sub(1) % sets.len() as u64;
    compare_set(tally, &sets[place as usize], Ends::Every)
}

/// All histories of a set's records, at each of the capacities.
fn compare_set(tally: &mut Tally, (name, records): &Set, asked: Ends) -> Compared {
    let inputs: Vec<Vec<u8>> = records.iter().map(encoded).collect();
    compare_inputs(tally, &inputs, asked)
        .map_err(|difference| format!("the set {name}: {difference}"))
}

fn compare_inputs(tally: &mut Tally, inputs: &[Vec<u8>], asked: Ends) -> Compared {
    let histories = numbers::all(tally, inputs)?;
    for capacity in capacities(inputs) {
        let mut beside = Beside::open(tally, capacity, asked)?;
        for history in &histories {
            beside.compare(tally, &runs::records(history))?;
        }
    }
    Ok(())
}

/// Twice as much as the histories need; just as much, and one byte less; half of
/// it, and as much as the heaviest record alone.
fn capacities(inputs: &[Vec<u8>]) -> Vec<usize> {
    let fresh = Reference::new();
    let one = heaviest(&fresh, inputs, 1);
    let all = heaviest(&fresh, inputs, LONGEST);
    let mut capacities = vec![2 * all, all, all - 1, all.midpoint(FIXED_ROOM), one];
    capacities.retain(|capacity| *capacity >= FIXED_ROOM);
    capacities.dedup();
    capacities
}

/// The greatest weight within so many steps, by the reference alone.
fn heaviest(reference: &Reference, inputs: &[Vec<u8>], steps: usize) -> usize {
    let own = weight(&reference.observed());
    if steps == 0 {
        return own;
    }
    let after = |input: &Vec<u8>| {
        let mut after = reference.clone();
        after.take(input, false);
        heaviest(&after, inputs, steps - 1)
    };
    inputs.iter().map(after).fold(own, usize::max)
}
