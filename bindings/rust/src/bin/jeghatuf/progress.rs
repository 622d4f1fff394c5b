//! How far long work is, on a terminal.

use std::io::{self, IsTerminal, Write};
use std::sync::mpsc::{RecvTimeoutError, channel};
use std::thread;
use std::time::{Duration, Instant};

/// How long work is quiet, and how often a line is written anew.
const PAUSE: Duration = Duration::from_millis(500);

/// Takes a terminal's line away.
pub const CLEAR: &str = "\r\x1b[K";

/// Bytes between two looks at the clock.
const STEP: u64 = 1 << 14;

/// How far the reading of a file is. It is shown where standard error is a terminal, and
/// standard output is none that the lines would stand in.
pub struct Progress {
    shown: Option<Instant>,
    is_shown: bool,
    size: Option<u64>,
    next: u64,
}

impl Progress {
    pub fn new(size: Option<u64>) -> Self {
        let shows = io::stderr().is_terminal() && !io::stdout().is_terminal();
        Self {
            shown: shows.then(Instant::now),
            is_shown: false,
            size: size.filter(|size| *size > 0),
            next: 0,
        }
    }

    /// Says that so many bytes were read.
    pub fn at(&mut self, place: u64) {
        let Some(shown) = self.shown else { return };
        if place < self.next {
            return;
        }
        self.next = place.saturating_add(STEP);
        if shown.elapsed() < PAUSE {
            return;
        }
        self.shown = Some(Instant::now());
        self.is_shown = true;
        let megabytes = place as f64 / 1e6;
        let line = match self.size {
            Some(size) => format!(
                "{megabytes:.1} MB, {:.0} %",
                place as f64 * 100.0 / size as f64
            ),
            None => format!("{megabytes:.1} MB"),
        };
        let _ = write!(io::stderr(), "{CLEAR}{line}");
    }
}

impl Drop for Progress {
    fn drop(&mut self) {
        if self.is_shown {
            let _ = write!(io::stderr(), "{CLEAR}");
        }
    }
}

/// Does work of which nothing is known on the way, and meanwhile says for how long.
pub fn timed<T>(what: &str, work: impl FnOnce() -> T) -> T {
    if !io::stderr().is_terminal() {
        return work();
    }
    let (done, ends) = channel::<()>();
    thread::scope(|scope| {
        scope.spawn(move || {
            let start = Instant::now();
            while ends.recv_timeout(PAUSE) == Err(RecvTimeoutError::Timeout) {
                let seconds = start.elapsed().as_secs_f64();
                let _ = write!(io::stderr(), "{CLEAR}{what}: {seconds:.0} s");
            }
            if start.elapsed() > PAUSE {
                let _ = write!(io::stderr(), "{CLEAR}");
            }
        });
        let answer = work();
        drop(done);
        answer
    })
}
