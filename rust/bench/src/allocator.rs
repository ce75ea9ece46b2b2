//! The system's allocator, which can count the bytes that are asked for.

use std::{
    alloc::{GlobalAlloc, Layout, System},
    sync::atomic::{AtomicBool, AtomicIsize, Ordering::Relaxed},
};

/// Counts while it is asked to. At other times this costs a load and a branch
/// that is always foretold, so that times are not changed.
pub struct Counting;

static COUNTS: AtomicBool = AtomicBool::new(false);

static KEPT: AtomicIsize = AtomicIsize::new(0);

/// The bytes that are still kept of those asked for in this work, without what
/// the allocator itself adds to each piece.
pub fn bytes_kept<R>(work: impl FnOnce() -> R) -> usize {
    KEPT.store(0, Relaxed);
    COUNTS.store(true, Relaxed);
    let result = work();
    COUNTS.store(false, Relaxed);
    drop(result);
    KEPT.load(Relaxed) as usize
}

fn count(bytes: isize) {
    if COUNTS.load(Relaxed) {
        KEPT.fetch_add(bytes, Relaxed);
    }
}

// SAFETY: every call goes on to the system's allocator as it is.
unsafe impl GlobalAlloc for Counting {
    unsafe fn alloc(&self, layout: Layout) -> *mut u8 {
        count(layout.size() as isize);
        System.alloc(layout)
    }

    unsafe fn dealloc(&self, pointer: *mut u8, layout: Layout) {
        count(-(layout.size() as isize));
        System.dealloc(pointer, layout)
    }

    unsafe fn alloc_zeroed(&self, layout: Layout) -> *mut u8 {
        count(layout.size() as isize);
        System.alloc_zeroed(layout)
    }

    unsafe fn realloc(&self, pointer: *mut u8, layout: Layout, size: usize) -> *mut u8 {
        count(size as isize - layout.size() as isize);
        System.realloc(pointer, layout, size)
    }
}
