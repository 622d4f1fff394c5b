//! The least of an input that shows a difference: fewer items, then simpler ones.
//! So every input is shrunk that is a list: a history's records, a list's names,
//! bytes.

mod simpler;

pub use simpler::{shorter, simpler};

use wire::read;

use crate::held::is_held;

/// The steps of a search among records, and among bytes: some seconds of either.
pub const STEPS: usize = 20_000;
pub const BYTES: usize = 4_000_000;

/// Some items, and the difference that they show.
pub type Least<T> = (Vec<T>, String);

/// A search that ends. It draws nothing, and finds the same whenever it is run.
pub struct Shrinker {
    left: usize,
}

impl Shrinker {
    /// With so many steps: a try of some items takes one for each, and one more.
    pub fn new(steps: usize) -> Self {
        Self { left: steps }
    }

    /// Takes items out as long as the others fail: halves, quarters and so on,
    /// the last ones first, and single ones until none of them can go.
    pub fn fewer<T: Clone>(&mut self, items: &[T], mut fails: impl FnMut(&[T]) -> bool) -> Vec<T> {
        let mut items = items.to_vec();
        let mut size = items.len().div_ceil(2);
        while size > 0 {
            let before = items.len();
            self.take_out(&mut items, size, &mut fails);
            let again = size == 1 && items.len() < before;
            size = if again { 1 } else { size / 2 };
        }
        items
    }

    /// Takes out so many neighbours at a time, each of them once.
    fn take_out<T: Clone>(
        &mut self,
        items: &mut Vec<T>,
        size: usize,
        fails: &mut impl FnMut(&[T]) -> bool,
    ) {
        let mut end = items.len();
        while end > 0 && self.left > 0 {
            let start = end.saturating_sub(size);
            let others = [&items[..start], &items[end..]].concat();
            if self.tries(&others, fails) {
                *items = others;
            }
            end = start;
        }
    }

    /// Puts simpler items in the places of others as long as all of them fail.
    /// Of an item `simpler` gives the boldest first, and of the last one nothing.
    pub fn simpler<T: Clone>(
        &mut self,
        items: &[T],
        simpler: impl Fn(&T) -> Vec<T>,
        mut fails: impl FnMut(&[T]) -> bool,
    ) -> Vec<T> {
        let mut items = items.to_vec();
        for place in 0..items.len() {
            let mut found = true;
            while found {
                let mut others = simpler(&items[place]).into_iter();
                found = others.any(|other| self.takes(&mut items, place, other, &mut fails));
            }
        }
        items
    }

    /// Whether the items fail with another one at the place, which then stays.
    fn takes<T: Clone>(
        &mut self,
        items: &mut [T],
        place: usize,
        other: T,
        fails: &mut impl FnMut(&[T]) -> bool,
    ) -> bool {
        let before = std::mem::replace(&mut items[place], other);
        let taken = self.tries(items, fails);
        if !taken {
            items[place] = before;
        }
        taken
    }

    fn tries<T>(&mut self, items: &[T], fails: &mut impl FnMut(&[T]) -> bool) -> bool {
        let left = self.left.checked_sub(items.len() + 1);
        self.left = left.unwrap_or(0);
        left.is_some() && fails(items)
    }
}

/// The least of the items that is found to differ, and how; the items themselves
/// with the difference that is known of them where nothing less differs.
pub fn least<T: Clone>(
    steps: usize,
    difference: String,
    items: &[T],
    simpler: impl Fn(&T) -> Vec<T>,
    mut compare: impl FnMut(&[T]) -> Result<(), String>,
) -> Least<T> {
    let (mut shrinker, mut shown) = (Shrinker::new(steps), difference);
    let mut fails = |items: &[T]| match compare(items) {
        Ok(()) => false,
        Err(other) => {
            shown = other;
            true
        }
    };
    let fewer = shrinker.fewer(items, &mut fails);
    let items = shrinker.simpler(&fewer, simpler, &mut fails);
    (items, shown)
}

/// Of a history's inputs, which are held against the reference.
pub fn least_records(
    difference: String,
    inputs: &[Vec<u8>],
    compare: impl FnMut(&[Vec<u8>]) -> Result<(), String>,
) -> Least<Vec<u8>> {
    least(
        STEPS,
        difference,
        inputs,
        |input| simpler_held(input),
        compare,
    )
}

/// Of a run of records, or of what is left of one.
pub fn least_run(
    difference: String,
    run: &[u8],
    mut compare: impl FnMut(&[u8]) -> Result<(), String>,
) -> Least<u8> {
    let compare = |pieces: &[Vec<u8>]| {
        let run = pieces.concat();
        match is_held(&run) {
            true => compare(&run),
            false => Ok(()),
        }
    };
    let (pieces, difference) = least_records(difference, &pieces(run), compare);
    (pieces.concat(), difference)
}

/// Of bytes, whatever they are.
pub fn least_bytes(
    difference: String,
    bytes: &[u8],
    compare: impl FnMut(&[u8]) -> Result<(), String>,
) -> Least<u8> {
    let lower = |byte: &u8| match *byte {
        0 => Vec::new(),
        byte => vec![0, byte / 2, byte - 1],
    };
    least(BYTES, difference, bytes, lower, compare)
}

/// Of a record's bytes, good or damaged: first as a record, then as bytes.
pub fn least_input(
    difference: String,
    input: &[u8],
    mut compare: impl FnMut(&[u8]) -> Result<(), String>,
) -> Least<u8> {
    let (input, difference) = least_run(difference, input, &mut compare);
    least_bytes(difference, &input, compare)
}

/// What is simpler than an input, and is held against the reference.
pub fn simpler_held(input: &[u8]) -> Vec<Vec<u8>> {
    let mut inputs = simpler(input);
    inputs.retain(|input| is_held(input));
    inputs
}

/// The records that a run begins with, and all that comes behind them.
pub fn pieces(run: &[u8]) -> Vec<Vec<u8>> {
    let (mut pieces, mut rest) = (Vec::new(), run);
    while let Ok(used) = read(rest) {
        pieces.push(rest[..used].to_vec());
        rest = &rest[used..];
    }
    if !rest.is_empty() {
        pieces.push(rest.to_vec());
    }
    pieces
}
