//! Histories with cuts at any places, beside the same ones uncut and beside the
//! reference; and Restore of bytes that no snapshot wrote.

use oracle::shrink::{self, STEPS, least_run, simpler_held};
use wire::{Random, hex};

use super::course::Course;
use super::drawn::{Drawn, capacities};
use super::premises::{Premises, alike};
use super::restart::{compare_no_capacity, compare_restore};
use super::runs::to_restore;
use super::told;
use crate::images::{Compared, Tally};

/// In some histories one step in so many is followed by a cut; in some all are.
const OFTEN: [usize; 4] = [1, 3, 8, 20];
/// One step in so many is followed by all questions to both images.
const ASKED: usize = 6;

/// Compares the history of a seed, with cuts and without, at one capacity.
pub fn compare_cuts(tally: &mut Tally, seed: u64) -> Compared {
    let mut random = Random::new(seed ^ 0x5EED);
    let drawn = Drawn::of(&mut random, seed);
    let capacities = capacities(&mut random, drawn.reached);
    let capacity = capacities[random.below(capacities.len())];
    let mut pair = Pair::open(tally, capacity, drawn.validated)?;
    let often = OFTEN[random.below(OFTEN.len())];
    let mut taken = Vec::new();
    for input in &drawn.inputs {
        for step in [Step::Give(input.clone()), Step::Cut, Step::Ask] {
            if step.is_drawn(&mut random, often) {
                taken.push((step.clone(), random.clone()));
                pair.take(tally, &mut random, &step)
                    .map_err(|difference| least(difference, capacity, drawn.validated, &taken))?;
            }
        }
    }
    compare_bytes(tally, &mut random, &pair.cut, &drawn.inputs)
}

/// A step of a history with cuts.
#[derive(Clone)]
enum Step {
    Give(Vec<u8>),
    Cut,
    /// All questions to both images.
    Ask,
}

impl Step {
    /// Each input is given; now and then a cut follows, and now and then all
    /// questions.
    fn is_drawn(&self, random: &mut Random, often: usize) -> bool {
        match self {
            Self::Give(_) => true,
            Self::Cut => random.below(often) == 0,
            Self::Ask => random.below(ASKED) == 0,
        }
    }

    fn simpler(&self) -> Vec<Self> {
        match self {
            Self::Give(input) => simpler_held(input).into_iter().map(Self::Give).collect(),
            Self::Cut | Self::Ask => Vec::new(),
        }
    }

    fn told(&self) -> String {
        match self {
            Self::Give(input) => told(input),
            Self::Cut => "  a cut\n".to_owned(),
            Self::Ask => "  all questions to the cut and the uncut image\n".to_owned(),
        }
    }
}

/// A step, and what was drawn from where it was taken.
type Taken = (Step, Random);

/// The difference with the fewest steps that show one.
fn least(difference: String, capacity: usize, validated: bool, taken: &[Taken]) -> String {
    let compare = |taken: &[Taken]| {
        let mut pair = Pair::open(&mut Tally::default(), capacity, validated)?;
        taken.iter().try_for_each(|(step, random)| {
            pair.take(&mut Tally::default(), &mut random.clone(), step)
        })
    };
    let simpler = |(step, random): &Taken| {
        let others = step.simpler().into_iter();
        others.map(|other| (other, random.clone())).collect()
    };
    let (taken, difference) = shrink::least(STEPS, difference, taken, simpler, compare);
    let steps: String = taken.iter().map(|(step, _)| step.told()).collect();
    format!("{difference}\nat capacity {capacity}, validated: {validated}, after these:\n{steps}")
}

/// The cut history's image and the uncut one's, each beside its own reference.
struct Pair {
    cut: Course,
    uncut: Course,
    /// As a history's.
    validated: bool,
    premises: Premises,
}

impl Pair {
    fn open(tally: &mut Tally, capacity: usize, validated: bool) -> Result<Self, String> {
        let uncut = Course::open(tally, capacity)?;
        Ok(Self {
            cut: uncut.clone(),
            uncut,
            validated,
            premises: Premises::of(validated),
        })
    }

    /// The uncut history goes on where the other one is cut.
    fn take(&mut self, tally: &mut Tally, random: &mut Random, step: &Step) -> Compared {
        match step {
            Step::Give(input) => self.give(tally, input),
            Step::Cut => self.cut.cut(tally, random),
            Step::Ask => self.ask(tally),
        }
    }

    /// The same input to both. The verdicts and the log offsets are equal as long
    /// as the premises hold of the uncut history.
    fn give(&mut self, tally: &mut Tally, input: &[u8]) -> Compared {
        self.premises.see_image(&self.uncut.reference);
        let uncut = self
            .uncut
            .take(&mut Tally::default(), input, self.validated)?;
        let cut = self.cut.take(tally, input, self.validated)?;
        self.premises.see_step(input, uncut);
        let offsets = [&self.uncut, &self.cut].map(|course| course.reference.offset);
        let equal = uncut == cut && offsets[0] == offsets[1];
        match equal || !self.premises.hold() {
            true => Ok(()),
            false => Err(format!(
                "the cut history says {cut:?}, the uncut {uncut:?}; the log offsets: {offsets:?}"
            )),
        }
    }

    fn ask(&mut self, tally: &mut Tally) -> Compared {
        self.premises.see_image(&self.uncut.reference);
        match self.premises.hold() {
            true => alike(tally, &self.uncut, &self.cut),
            false => Ok(()),
        }
    }
}

/// Restore of bytes that no snapshot wrote, and of the last snapshot.
fn compare_bytes(
    tally: &mut Tally,
    random: &mut Random,
    course: &Course,
    inputs: &[Vec<u8>],
) -> Compared {
    let snapshot = course.expected_snapshot();
    compare_no_capacity(tally, random, &snapshot)
        .map_err(|difference| format!("{difference}\nof these bytes: {}", hex(&snapshot)))?;
    let capacity = course.buffer.len();
    for run in to_restore(random, &snapshot, inputs) {
        let before = random.clone();
        compare_restore(tally, random, capacity, &run).map_err(|difference| {
            let (run, difference) = least_run(difference, &run, |run| {
                compare_restore(&mut Tally::default(), &mut before.clone(), capacity, run)
            });
            let run = hex(&run);
            format!("{difference}\nat capacity {capacity}, of these bytes: {run}")
        })?;
    }
    Ok(())
}
