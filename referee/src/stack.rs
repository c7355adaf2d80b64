//! A stack that holds the deepest run.

use std::io;
use std::thread;

/// Members, groups, calls, expressions and scans nest only as far as the limits
/// of 01 allow; this holds the deepest nest of all of them many times over.
const STACK_BYTES: usize = 64 * 1024 * 1024;

/// Does some work on a thread whose stack is large enough for any deck.
pub fn with_large_stack<T, F>(work: F) -> io::Result<T>
where
    T: Send + 'static,
    F: FnOnce() -> T + Send + 'static,
{
    let thread = thread::Builder::new().stack_size(STACK_BYTES).spawn(work)?;
    let broken = |_| io::Error::other("the expansion broke off");
    thread.join().map_err(broken)
}
