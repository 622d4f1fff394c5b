//! Bytes for Restore: a snapshot's, and such as no snapshot wrote.

use oracle::held::is_held;
use oracle::snapshot::{start, starting};
use wire::{Random, damaged, encoded_offset, read};

/// How often each of them is drawn.
const DRAWS: usize = 2;

/// Made of a snapshot and of its history's inputs. Those that are not held
/// against the reference are left out.
pub fn to_restore(random: &mut Random, snapshot: &[u8], inputs: &[Vec<u8>]) -> Vec<Vec<u8>> {
    let (offset, first) = start(snapshot).expect("a snapshot starts with its offset");
    let (body, inputs) = (&snapshot[first..], inputs.concat());
    let mut all = vec![snapshot.to_vec(), snapshot.repeat(2), inputs.clone()];
    all.push(starting(offset, &inputs));
    for _ in 0..DRAWS {
        all.extend(changed(random, snapshot));
        all.extend(changed(random, body).map(|body| starting(offset, &body)));
    }
    all.extend(starts(random, offset, body));
    all.retain(|run| is_held(run));
    all
}

/// Cut anywhere, with any damage, and the records in another order.
fn changed(random: &mut Random, run: &[u8]) -> [Vec<u8>; 3] {
    let cut = run[..random.below(run.len() + 1)].to_vec();
    let damaged = match run.is_empty() {
        true => Vec::new(),
        false => damaged(random, run),
    };
    [cut, damaged, shuffled(random, run)]
}

fn shuffled(random: &mut Random, run: &[u8]) -> Vec<u8> {
    let mut order: Vec<&[u8]> = Vec::new();
    for record in records(run) {
        order.insert(random.below(order.len() + 1), record);
    }
    order.concat()
}

/// The log offset missing, as in the snapshots of before, and nothing at all;
/// alone, torn, below -1, twice, and later among the records.
fn starts(random: &mut Random, offset: i64, body: &[u8]) -> Vec<Vec<u8>> {
    let record = encoded_offset(offset);
    let torn = &record[..random.below(record.len())];
    let below = [-2, i64::MIN, i64::MIN + 1][random.below(3)];
    vec![
        body.to_vec(),
        Vec::new(),
        record.clone(),
        torn.to_vec(),
        [torn, body].concat(),
        starting(below, body),
        starting(offset, &starting(offset, body)),
        starting(offset, &starting(below, body)),
        later(random, &record, body),
        starting(offset, &later(random, &record, body)),
        starting(offset, &later(random, torn, body)),
    ]
}

/// Some bytes between the records, or behind them.
fn later(random: &mut Random, bytes: &[u8], run: &[u8]) -> Vec<u8> {
    let mut order = records(run);
    let least = order.len().min(1);
    let place = least + random.below(order.len() - least + 1);
    order.insert(place, bytes);
    order.concat()
}

/// The records of a run.
pub fn records(run: &[u8]) -> Vec<&[u8]> {
    let (mut records, mut rest) = (Vec::new(), run);
    while let Ok(used) = read(rest) {
        records.push(&rest[..used]);
        rest = &rest[used..];
    }
    records
}
