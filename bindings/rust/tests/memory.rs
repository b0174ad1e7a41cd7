//! What is refused is listed in little memory, whatever its length.

use std::alloc::{GlobalAlloc, Layout, System};
use std::cell::Cell;

thread_local! {
    /// The most bytes that this thread has asked for at once.
    static LARGEST: Cell<usize> = const { Cell::new(0) };
}

struct Watched;

// SAFETY: the system's allocator does it all.
unsafe impl GlobalAlloc for Watched {
    unsafe fn alloc(&self, layout: Layout) -> *mut u8 {
        LARGEST.set(LARGEST.get().max(layout.size()));
        System.alloc(layout)
    }

    unsafe fn alloc_zeroed(&self, layout: Layout) -> *mut u8 {
        LARGEST.set(LARGEST.get().max(layout.size()));
        System.alloc_zeroed(layout)
    }

    unsafe fn dealloc(&self, place: *mut u8, layout: Layout) {
        System.dealloc(place, layout)
    }
}

#[global_allocator]
static WATCHED: Watched = Watched;

/// The most bytes that listing these asks for at once.
fn largest(bytes: &[u8]) -> usize {
    LARGEST.set(0);
    let listing = sculldrip::listing(bytes);
    assert_eq!(listing.starts_with("refused "), bytes != sculldrip::SAMPLE);
    LARGEST.get()
}

#[test]
fn a_refused_input_is_listed_in_little_memory() {
    for length in [0, 1, 76, 8192, 8193, 1_000_000] {
        assert!(largest(&vec![0x30; length]) <= sculldrip::sys::REFUSED_LISTING_BYTES, "{length}");
    }
    assert_eq!(largest(&sculldrip::SAMPLE), sculldrip::sys::LISTING_BYTES);
}
