//! The system's allocator; and, while a call is made `within`, an arena that hands out one place after the other and is
//! empty again at the end. For one thread.
use std::alloc::{GlobalAlloc, Layout, System};
use std::ptr::null_mut;
use std::sync::atomic::{AtomicPtr, AtomicUsize, Ordering::Relaxed};

const BYTES: usize = 1 << 26;

static BEGIN: AtomicPtr<u8> = AtomicPtr::new(null_mut());
/// How much of the arena is used; `BYTES` and more while it is not in use.
static USED: AtomicUsize = AtomicUsize::new(BYTES);

pub struct Allocator;

unsafe impl GlobalAlloc for Allocator {
    unsafe fn alloc(&self, layout: Layout) -> *mut u8 {
        let at = USED.load(Relaxed).next_multiple_of(layout.align());
        if at + layout.size() > BYTES {
            return unsafe { System.alloc(layout) };
        }
        USED.store(at + layout.size(), Relaxed);
        unsafe { BEGIN.load(Relaxed).add(at) }
    }

    unsafe fn dealloc(&self, place: *mut u8, layout: Layout) {
        if !owns(place) {
            unsafe { System.dealloc(place, layout) }
        }
    }

    unsafe fn realloc(&self, place: *mut u8, layout: Layout, size: usize) -> *mut u8 {
        if !owns(place) {
            return unsafe { System.realloc(place, layout, size) };
        }
        unsafe {
            let other = self.alloc(Layout::from_size_align_unchecked(size, layout.align()));
            other.copy_from_nonoverlapping(place, layout.size().min(size));
            other
        }
    }
}

fn owns(place: *mut u8) -> bool {
    (place as usize).wrapping_sub(BEGIN.load(Relaxed) as usize) < BYTES
}

/// The call, with all that it allocates in the arena. It must leave nothing behind.
pub fn within(call: impl FnOnce()) {
    if BEGIN.load(Relaxed).is_null() {
        BEGIN.store(unsafe { System.alloc_zeroed(Layout::from_size_align(BYTES, 64).unwrap()) }, Relaxed);
    }
    USED.store(0, Relaxed);
    call();
    USED.store(BYTES, Relaxed);
}
