//! The system's memory, of which a thread can be refused all that it asks for.
#![deny(unsafe_op_in_unsafe_fn)]
use std::alloc::{GlobalAlloc, Layout, System};
use std::cell::Cell;

thread_local! {
    /// How many more requests of this thread are granted; none where all are.
    static GRANTED: Cell<Option<usize>> = const { Cell::new(None) };
}

struct Refusing;

#[global_allocator]
static MEMORY: Refusing = Refusing;

/// Whether the next request is granted.
fn grants() -> bool {
    match GRANTED.with(Cell::get) {
        None => true,
        Some(0) => false,
        Some(left) => {
            GRANTED.with(|granted| granted.set(Some(left - 1)));
            true
        }
    }
}

// SAFETY: each call is one of `System`, or answers null, which says that there is no memory.
unsafe impl GlobalAlloc for Refusing {
    unsafe fn alloc(&self, layout: Layout) -> *mut u8 {
        if grants() { unsafe { System.alloc(layout) } } else { std::ptr::null_mut() }
    }

    unsafe fn realloc(&self, at: *mut u8, layout: Layout, size: usize) -> *mut u8 {
        if grants() { unsafe { System.realloc(at, layout, size) } } else { std::ptr::null_mut() }
    }

    unsafe fn dealloc(&self, at: *mut u8, layout: Layout) {
        unsafe { System.dealloc(at, layout) }
    }
}

/// What a call answers that is granted so many requests for memory, and no more.
pub fn with_refusal<T>(granted: usize, call: impl FnOnce() -> T) -> T {
    GRANTED.with(|left| left.set(Some(granted)));
    let answer = call();
    GRANTED.with(|left| left.set(None));
    answer
}
