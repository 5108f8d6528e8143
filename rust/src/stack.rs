//! The stack that the deepest sources need.
#[cfg(feature = "std")]
use std::{io, panic, thread};

/// The deepest source that was measured takes 0.6 MiB where the crate is optimised, and 2.7 where it isn't; `is_loose` of the deepest tree
/// takes 0.8 and 2.9.
#[cfg(feature = "std")]
const STACK: usize = 16 * 1024 * 1024;

/// What a call answers that has the stack which the deepest sources need, whatever the caller's thread has left; or nothing where memory for
/// a thread was wanting. On a system without threads the call has the caller's stack.
#[cfg(feature = "std")]
pub fn with_stack<T: Send>(call: impl FnOnce() -> T + Send) -> Option<T> {
    // Where there is no thread, the call wasn't taken.
    let mut call = Some(call);
    let answer = thread::scope(|scope| {
        let run = thread::Builder::new().stack_size(STACK).spawn_scoped(scope, || call.take().map(|call| call()));
        run.map(|run| run.join().unwrap_or_else(|fault| panic::resume_unwind(fault)))
    });
    match answer {
        Ok(answer) => answer,
        Err(error) if error.kind() == io::ErrorKind::Unsupported => call.map(|call| call()),
        Err(_) => None,
    }
}

/// Without std the call has the caller's stack.
#[cfg(not(feature = "std"))]
pub fn with_stack<T>(call: impl FnOnce() -> T) -> Option<T> {
    Some(call())
}
