//! Tests that with the feature `global-allocator` the library's memory comes from the program's allocator, and goes back there
//! with the same layout. Each request is also the first one that is refused.
#![cfg(feature = "global-allocator")]

mod common;

use common::{append_file, append_parts, batch_bytes, demo_files};
use raft_recover::{
    Batches, Engine, ErrorKind, FilePart, LogBatch, MemoryFiles, Options, Queue, Result, recover,
};
use std::alloc::{GlobalAlloc, Layout, System};
use std::cell::Cell;
use std::sync::atomic::{AtomicUsize, Ordering::SeqCst};

/// The alignment of the library's blocks, which no other block of these tests has.
const OF_LIBRARY: usize = 16;

/// How many blocks went back with another size or alignment than they came with.
static WRONG: AtomicUsize = AtomicUsize::new(0);

thread_local! {
    /// How many blocks of the library this thread holds.
    static LIVE: Cell<i64> = const { Cell::new(0) };
    /// How many more requests of the library are granted to this thread; all later ones are refused.
    static GRANTED: Cell<u64> = const { Cell::new(u64::MAX) };
}

/// The allocator, which notes the layout of each block before it.
struct NotingAllocator;

/// Returns the layout of a block with room for a note of `layout` before it, and how many bytes that room has.
fn layout_with_note(layout: Layout) -> (Layout, usize) {
    let front = layout.align().max(OF_LIBRARY);
    let size = layout.size() + front;
    (Layout::from_size_align(size, front).unwrap(), front)
}

// SAFETY: the system's allocator does the work. A block that grows is a new one, as it is by default.
unsafe impl GlobalAlloc for NotingAllocator {
    /// Allocates a block with a note of its layout before it. Returns null to the library once its granted requests are used up.
    unsafe fn alloc(&self, layout: Layout) -> *mut u8 {
        if layout.align() == OF_LIBRARY {
            if GRANTED.get() == 0 {
                return std::ptr::null_mut();
            }
            GRANTED.set(GRANTED.get() - 1);
            LIVE.set(LIVE.get() + 1);
        }
        let (whole, front) = layout_with_note(layout);
        // SAFETY: the block has room for two numbers before what is handed out.
        unsafe {
            let at = System.alloc(whole).add(front);
            at.cast::<[usize; 2]>()
                .sub(1)
                .write([layout.size(), layout.align()]);
            at
        }
    }

    /// Frees a block, and counts it as wrong where its note has another layout.
    unsafe fn dealloc(&self, at: *mut u8, layout: Layout) {
        // SAFETY: the block came from `alloc`.
        unsafe {
            let [size, align] = at.cast::<[usize; 2]>().sub(1).read();
            if (size, align) != (layout.size(), layout.align()) {
                WRONG.fetch_add(1, SeqCst);
            }
            if align == OF_LIBRARY {
                LIVE.set(LIVE.get() - 1);
            }
            let (whole, front) = layout_with_note(Layout::from_size_align_unchecked(size, align));
            System.dealloc(at.sub(front), whole);
        }
    }
}

#[global_allocator]
static NOTING: NotingAllocator = NotingAllocator;

/// Writes, moves and deletes in an engine, opens its files again, and returns how many entries are there. Errs where a call finds
/// no memory, or the engine has failed before.
fn run_engine_steps() -> Result<usize> {
    let files = MemoryFiles::new();
    let options = Options::new().recovery_threads(1);
    let engine = Engine::with_files(files.clone(), options.clone())?;
    let mut batch = LogBatch::new()?;
    for index in 1..=4 {
        batch.add_entries(7, index, &[vec![7; 100]])?;
        batch.put(7, b"key", &[7; 100])?;
        engine.write(&mut batch, true)?;
    }
    engine.rotate()?;
    engine.rewrite(1)?;
    engine.purge()?;
    drop(engine);
    Ok(Engine::with_files(files, options)?.entries(7, ..)?.len())
}

/// Recovers the files of demo/, reads a batch item by item, and returns how many regions and items there were. Errs where a call
/// finds no memory.
fn run_recovery_steps() -> Result<usize> {
    let files = demo_files();
    let mut regions = recover(&append_parts(&files), Queue::Append, 1)?
        .regions()?
        .len();
    let bytes = batch_bytes(append_file(1), |batch| {
        batch.put(7, b"key", b"value").unwrap()
    });
    for batch in Batches::new(FilePart::new(append_file(1), &bytes))? {
        regions += batch?.len();
    }
    Ok(regions)
}

#[test]
fn blocks_go_back_to_the_allocator_with_the_layout_that_they_came_with() {
    for steps in [run_engine_steps, run_recovery_steps] {
        assert!(steps().unwrap() > 1);
        assert_eq!(LIVE.get(), 0);
        assert_eq!(WRONG.load(SeqCst), 0);
    }
}

#[test]
fn no_block_is_left_whichever_request_is_the_first_to_be_refused() {
    for granted in 0.. {
        GRANTED.set(granted);
        let result = run_engine_steps();
        let is_over = GRANTED.replace(u64::MAX) > 0;
        assert_eq!((LIVE.get(), WRONG.load(SeqCst)), (0, 0), "{granted}");
        match result {
            Ok(count) => assert_eq!(count, 4),
            Err(e) => assert!(
                matches!(e.kind, ErrorKind::Memory | ErrorKind::Failed),
                "{granted}: {e}"
            ),
        }
        if is_over {
            assert!(granted > 100, "{granted}");
            return;
        }
    }
}
