//! How long a call takes: the best of several rounds.

use std::hint::black_box;
use std::time::{Duration, Instant};

pub const ROUNDS: u32 = 10;
/// A round makes calls for at least so long: short enough to fall between what
/// else the machine does.
const ROUND: Duration = Duration::from_millis(5);

/// Nanoseconds a call.
pub fn best<T>(mut call: impl FnMut() -> T) -> f64 {
    let calls = calls(&mut call);
    let rounds = (0..ROUNDS).map(|_| round(calls, &mut call).as_secs_f64() * 1e9);
    rounds.fold(f64::INFINITY, f64::min) / f64::from(calls)
}

/// How many calls fill a round.
fn calls<T>(call: &mut impl FnMut() -> T) -> u32 {
    let mut calls = 1;
    while round(calls, call) < ROUND {
        calls *= 2;
    }
    calls
}

fn round<T>(calls: u32, call: &mut impl FnMut() -> T) -> Duration {
    let start = Instant::now();
    for _ in 0..calls {
        black_box(call());
    }
    start.elapsed()
}
