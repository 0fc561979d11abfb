//! What a reader asks of memory: bytes that are allocated, at most, and stack that is touched.
use std::alloc::{GlobalAlloc, Layout, System};
use std::sync::atomic::{AtomicBool, AtomicUsize, Ordering::Relaxed};

/// The system's allocator, which counts while it is asked to.
pub struct Counted;

static COUNTS: AtomicBool = AtomicBool::new(false);
static HELD: AtomicUsize = AtomicUsize::new(0);
static MOST: AtomicUsize = AtomicUsize::new(0);

fn held(more: usize, less: usize) {
    if COUNTS.load(Relaxed) {
        let now = HELD.load(Relaxed).wrapping_add(more).wrapping_sub(less);
        HELD.store(now, Relaxed);
        MOST.fetch_max(now, Relaxed);
    }
}

// SAFETY: every call is handed on to the system's allocator as it came.
unsafe impl GlobalAlloc for Counted {
    unsafe fn alloc(&self, layout: Layout) -> *mut u8 {
        held(layout.size(), 0);
        System.alloc(layout)
    }
    unsafe fn dealloc(&self, pointer: *mut u8, layout: Layout) {
        held(0, layout.size());
        System.dealloc(pointer, layout)
    }
    unsafe fn realloc(&self, pointer: *mut u8, layout: Layout, size: usize) -> *mut u8 {
        held(size, layout.size());
        System.realloc(pointer, layout, size)
    }
}

/// How many bytes were held at once, at most, in a call on one thread.
pub fn allocated(call: impl FnOnce()) -> usize {
    HELD.store(0, Relaxed);
    MOST.store(0, Relaxed);
    COUNTS.store(true, Relaxed);
    call();
    COUNTS.store(false, Relaxed);
    MOST.load(Relaxed)
}

/// How much of the stack of a thread of its own was touched in a call, in kB and to a page: what Linux says is resident of it.
pub fn stack(call: impl FnOnce() + Send) -> Option<usize> {
    std::thread::scope(|scope| {
        let thread = std::thread::Builder::new().stack_size(16 << 20);
        let measured = thread.spawn_scoped(scope, || {
            call();
            let here = 0u8;
            let here = &here as *const u8 as usize;
            resident(&std::fs::read_to_string("/proc/self/smaps").ok()?, here)
        });
        measured.ok()?.join().ok()?
    })
}

fn resident(maps: &str, here: usize) -> Option<usize> {
    let mut within = false;
    for line in maps.lines() {
        let first = line.split(' ').next()?;
        if let Some((from, to)) = first.split_once('-') {
            let bound = |word| usize::from_str_radix(word, 16).ok();
            within = bound(from)? <= here && here < bound(to)?;
        } else if within && first == "Rss:" {
            return line.split_whitespace().nth(1)?.parse().ok();
        }
    }
    None
}
