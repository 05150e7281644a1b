//! How much of the heap the original takes at most while it flattens a drawing.

use std::{
    alloc::{GlobalAlloc, Layout, System},
    sync::atomic::{AtomicBool, AtomicIsize, Ordering::Relaxed},
};

/// The system's allocator, which counts while it is told to; otherwise it costs a call one test.
pub struct Counting;

static ON: AtomicBool = AtomicBool::new(false);
static HELD: AtomicIsize = AtomicIsize::new(0);
static MOST: AtomicIsize = AtomicIsize::new(0);

fn add(bytes: isize) {
    if ON.load(Relaxed) {
        let held = HELD.fetch_add(bytes, Relaxed) + bytes;
        MOST.fetch_max(held, Relaxed);
    }
}

// SAFETY: every call is passed on to the system's allocator as it is
unsafe impl GlobalAlloc for Counting {
    unsafe fn alloc(&self, layout: Layout) -> *mut u8 {
        add(layout.size() as isize);
        System.alloc(layout)
    }

    unsafe fn dealloc(&self, at: *mut u8, layout: Layout) {
        add(-(layout.size() as isize));
        System.dealloc(at, layout)
    }

    // a buffer that grows counts once, also where it has to move
    unsafe fn realloc(&self, at: *mut u8, layout: Layout, size: usize) -> *mut u8 {
        add(size as isize - layout.size() as isize);
        System.realloc(at, layout, size)
    }
}

/// The bytes that f holds at most beside what was there before. No other thread may run.
pub fn most(f: impl FnOnce()) -> usize {
    HELD.store(0, Relaxed);
    MOST.store(0, Relaxed);
    ON.store(true, Relaxed);
    f();
    ON.store(false, Relaxed);
    MOST.load(Relaxed) as usize
}

/// C's allocator takes large buffers from the system one at a time: what one side lends would then change how long the other side's own vectors take.
/// Here all come from the heap, and stay there.
#[cfg(target_env = "gnu")]
pub fn settle_allocator() {
    extern "C" {
        fn mallopt(parameter: i32, value: i32) -> i32;
    }
    const M_TRIM_THRESHOLD: i32 = -1;
    const M_MMAP_MAX: i32 = -4;
    // SAFETY: glibc's mallopt takes any two numbers, and is called before there is another thread
    unsafe {
        assert_eq!(mallopt(M_TRIM_THRESHOLD, i32::MAX), 1);
        assert_eq!(mallopt(M_MMAP_MAX, 0), 1);
    }
}

#[cfg(not(target_env = "gnu"))]
pub fn settle_allocator() {}
