//! What the patch counts: entries to right, left and search, and generated indices. An entry is also where the driver's own limits
//! (entries, time, memory) stop a search that takes too long: they panic with `GaveUp`, which is no answer of the Rust.
use std::alloc::{GlobalAlloc, Layout, System};
use std::cell::Cell;
use std::panic::panic_any;
use std::sync::atomic::{AtomicUsize, Ordering::Relaxed};
use std::time::{Duration, Instant};

pub struct GaveUp(pub &'static str);

#[derive(Clone, Copy, Default)]
pub struct Counts {
    pub right: u64,
    pub left: u64,
    pub search: u64,
    pub indices: u64,
}

impl Counts {
    pub fn entries(&self) -> u64 {
        self.right + self.left + self.search
    }
}

#[derive(Clone, Copy)]
pub struct Bounds {
    pub entries: u64,
    pub time: Duration,
    pub memory: usize,
}

#[derive(Clone, Copy)]
struct Watch {
    counts: Counts,
    bounds: Bounds,
    start: Instant,
}

thread_local! {
    static WATCH: Cell<Option<Watch>> = const { Cell::new(None) };
}

pub fn start(bounds: Bounds) {
    WATCH.set(Some(Watch {
        counts: Counts::default(),
        bounds,
        start: Instant::now(),
    }));
}

pub fn counts() -> Counts {
    WATCH.get().expect("started").counts
}

fn count(add: impl Fn(&mut Counts)) {
    let mut watch = WATCH.get().expect("started");
    add(&mut watch.counts);
    WATCH.set(Some(watch));
    if watch.counts.entries() > watch.bounds.entries {
        panic_any(GaveUp("entries"));
    }
    if MEMORY.load(Relaxed) > watch.bounds.memory {
        panic_any(GaveUp("memory"));
    }
    if watch.start.elapsed() > watch.bounds.time {
        panic_any(GaveUp("time"));
    }
}

pub fn right() {
    count(|counts| counts.right += 1);
}

pub fn left() {
    count(|counts| counts.left += 1);
}

pub fn search() {
    count(|counts| counts.search += 1);
}

pub fn index() {
    count(|counts| counts.indices += 1);
}

/// The system's allocator, with the number of bytes in use.
pub struct Measured;

static MEMORY: AtomicUsize = AtomicUsize::new(0);

unsafe impl GlobalAlloc for Measured {
    unsafe fn alloc(&self, layout: Layout) -> *mut u8 {
        MEMORY.fetch_add(layout.size(), Relaxed);
        unsafe { System.alloc(layout) }
    }

    unsafe fn dealloc(&self, at: *mut u8, layout: Layout) {
        MEMORY.fetch_sub(layout.size(), Relaxed);
        unsafe { System.dealloc(at, layout) }
    }
}
