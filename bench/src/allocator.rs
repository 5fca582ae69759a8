//! The system's allocator, but each large block begins at another place of its
//! page than the one before it.
//!
//! An insert copies the first record of each partition behind the target. Blocks
//! of 4,096 slots are whole pages, so that these records lie at one place of a page
//! and compete for one set of the first cache, which keeps eight lines; where the
//! four slices begin at the same place of a page, all of them for the same set.
//! Where the system's allocator lets them begin is an accident: at the same place
//! if each is a mapping of its own, anywhere if not.

use std::alloc::{GlobalAlloc, Layout, System};
use std::sync::atomic::{AtomicUsize, Ordering::Relaxed};

/// Bytes from which on a block is large.
const LARGE: usize = 256 * 1_024;
/// The lines of a page fall into the 64 sets of the first cache, one into each.
const PAGE: usize = 4_096;
const LINE: usize = 64;
/// Lines from the place of a block to that of the next. A batch of inserts moves
/// the first slots by two lines; the eight slices of two columns are further apart.
const APART: usize = 5;
/// What the system's blocks are aligned to, and bytes kept ahead of a large block.
const HEAD: usize = 16;

/// Lines from the place of a large block to that of the next.
static STEP: AtomicUsize = AtomicUsize::new(APART);
/// The next block's place, in lines.
static NEXT: AtomicUsize = AtomicUsize::new(0);

/// All large blocks that are made meanwhile begin at the same place of a page.
pub fn together<T>(make: impl FnOnce() -> T) -> T {
    STEP.store(0, Relaxed);
    let made = make();
    STEP.store(APART, Relaxed);
    made
}

pub struct Allocator;

/// What is asked of the system for a large block; none if the block is not large.
fn around(layout: Layout) -> Option<Layout> {
    let large = layout.size() >= LARGE && layout.align() <= HEAD;
    let size = layout.size().checked_add(HEAD + PAGE)?;
    Layout::from_size_align(size, HEAD).ok().filter(|_| large)
}

/// The large block in what the system gave, with its distance from there in the
/// eight bytes ahead of it.
unsafe fn placed(start: *mut u8) -> *mut u8 {
    if start.is_null() {
        return start;
    }
    let place = LINE * NEXT.fetch_add(STEP.load(Relaxed), Relaxed);
    let ahead = HEAD + place.wrapping_sub(start as usize + HEAD) % PAGE;
    let block = start.add(ahead);
    block.cast::<usize>().sub(1).write(ahead);
    block
}

/// How far a large block is from what the system gave.
unsafe fn ahead(block: *mut u8) -> usize {
    block.cast::<usize>().sub(1).read()
}

// SAFETY: whether a block is large is a matter of its layout alone, so that what
// the system is given back is what it gave, with the layout it was asked for. A
// large block and the bytes ahead of it lie in what the system gave.
unsafe impl GlobalAlloc for Allocator {
    unsafe fn alloc(&self, layout: Layout) -> *mut u8 {
        match around(layout) {
            Some(around) => placed(System.alloc(around)),
            None => System.alloc(layout),
        }
    }

    unsafe fn alloc_zeroed(&self, layout: Layout) -> *mut u8 {
        match around(layout) {
            Some(around) => placed(System.alloc_zeroed(around)),
            None => System.alloc_zeroed(layout),
        }
    }

    unsafe fn dealloc(&self, block: *mut u8, layout: Layout) {
        match around(layout) {
            Some(around) => System.dealloc(block.sub(ahead(block)), around),
            None => System.dealloc(block, layout),
        }
    }

    /// As the system does it, so that growing costs what it costs there. A large
    /// block keeps its place of a page only if the system moves it by pages.
    unsafe fn realloc(&self, block: *mut u8, layout: Layout, size: usize) -> *mut u8 {
        let new = Layout::from_size_align_unchecked(size, layout.align());
        match (around(layout), around(new)) {
            (None, None) => System.realloc(block, layout, size),
            (Some(old), Some(new)) => {
                let ahead = ahead(block);
                let start = System.realloc(block.sub(ahead), old, new.size());
                match start.is_null() {
                    true => start,
                    false => start.add(ahead),
                }
            }
            _ => {
                let other = self.alloc(new);
                if !other.is_null() {
                    other.copy_from_nonoverlapping(block, size.min(layout.size()));
                    self.dealloc(block, layout);
                }
                other
            }
        }
    }
}
