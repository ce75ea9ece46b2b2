//! Stand-in for the crate replace_with, of which the original uses
//! `replace_with_or_abort` alone.

use std::{mem, process, ptr};

/// Aborts when dropped during an unwinding: the value was moved out and a
/// second drop of it must not happen.
struct AbortOnUnwind;

impl Drop for AbortOnUnwind {
    fn drop(&mut self) {
        process::abort()
    }
}

/// Replaces `*dest` by `f` of it.
pub fn replace_with_or_abort<T>(dest: &mut T, f: impl FnOnce(T) -> T) {
    let guard = AbortOnUnwind;
    // SAFETY: the value read is consumed by `f` once, `dest` is written before
    // anyone can read it again, and a panic in between aborts.
    unsafe { ptr::write(dest, f(ptr::read(dest))) };
    mem::forget(guard);
}
