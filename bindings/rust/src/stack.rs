//! The stack that calls take.

use std::io;
use std::panic::resume_unwind;
use std::thread;

/// The stack that [`compare`](crate::compare) needs at most, in bytes; the caller's own is
/// not counted. Measured on x86-64, where 450 KB served.
pub const STACK_COMPARE: usize = 576 * 1024;

/// That of [`Image::apply`](crate::Image::apply) and
/// [`Image::restore`](crate::Image::restore); 316 KB served.
pub const STACK_APPLY: usize = 384 * 1024;

/// That of [`Record::read`](crate::Record::read), of a record that is built or asked, and of
/// [`Image::open`](crate::Image::open); 16 KB served.
pub const STACK_RECORD: usize = 16 * 1024;

/// That of every other call; 72 KB served.
pub const STACK_OTHER: usize = 96 * 1024;

/// What serves every call.
pub const STACK: usize = STACK_COMPARE;

/// What a closure has for itself in [`with_stack`].
const BESIDE: usize = 1024 * 1024;

/// Runs a closure on a thread of its own that has the stack for every call, and 1 MB beside
/// it, and waits for it. A call on a thread with too small a stack crashes the process; in
/// here none does, whatever the caller's thread has.
///
/// The error is the system's, where it has no more threads. Where the closure panics, this
/// does.
///
/// ```
/// use jeghatuf::{compare, with_stack};
///
/// let comparison = with_stack(|| compare(65_536, &[], &[]))?;
/// assert_eq!(comparison.unwrap().count, 0);
/// # Ok::<(), std::io::Error>(())
/// ```
pub fn with_stack<T: Send>(work: impl FnOnce() -> T + Send) -> io::Result<T> {
    thread::scope(|scope| {
        let builder = thread::Builder::new().stack_size(STACK + BESIDE);
        let thread = builder.spawn_scoped(scope, work)?;
        Ok(thread.join().unwrap_or_else(|panic| resume_unwind(panic)))
    })
}
