//! The memory that a call takes, counted by the allocator for each thread.

use std::alloc::{GlobalAlloc, Layout, System};
use std::cell::Cell;

struct Counting;

#[global_allocator]
static ALLOCATOR: Counting = Counting;

thread_local! {
    /// The bytes that the thread has taken and not given back, and the most there were.
    static NOW: Cell<isize> = const { Cell::new(0) };
    static MOST: Cell<isize> = const { Cell::new(0) };
}

fn count(bytes: isize) {
    let now = NOW.get() + bytes;
    NOW.set(now);
    MOST.set(MOST.get().max(now));
}

// SAFETY: everything is handed to the system's allocator as it is; counting takes no memory.
unsafe impl GlobalAlloc for Counting {
    unsafe fn alloc(&self, layout: Layout) -> *mut u8 {
        count(layout.size() as isize);
        System.alloc(layout)
    }

    unsafe fn alloc_zeroed(&self, layout: Layout) -> *mut u8 {
        count(layout.size() as isize);
        System.alloc_zeroed(layout)
    }

    unsafe fn dealloc(&self, pointer: *mut u8, layout: Layout) {
        count(-(layout.size() as isize));
        System.dealloc(pointer, layout);
    }

    /// While a block grows the old one may still be there.
    unsafe fn realloc(&self, pointer: *mut u8, layout: Layout, size: usize) -> *mut u8 {
        count(size as isize);
        let grown = System.realloc(pointer, layout, size);
        count(-(layout.size() as isize));
        grown
    }
}

/// What a call comes to, and the most memory that it took at a time.
pub fn most_memory<T>(call: impl FnOnce() -> T) -> (T, usize) {
    let before = NOW.get();
    MOST.set(before);
    let outcome = call();
    let taken = MOST.get() - before;
    (outcome, usize::try_from(taken).expect("it is at least 0"))
}

#[test]
fn memory_is_counted() {
    let (block, memory) = most_memory(|| {
        drop(vec![1_u8; 3_000]);
        vec![0_u8; 1_000]
    });
    assert_eq!((block.len(), memory), (1_000, 3_000));
    let (_, memory) = most_memory(|| {
        let mut grown: Vec<u8> = Vec::with_capacity(1_000);
        grown.reserve_exact(5_000);
        grown
    });
    assert_eq!(memory, 6_000);
}
