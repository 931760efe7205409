//! Gives the library memory of the program's own allocator.

use std::alloc::{Layout, alloc, dealloc, realloc};
use std::ptr;

/// The answer to a request for memory: whether it is granted, and a pointer to the memory.
#[repr(C)]
struct Tried {
    ok: bool,
    at: *mut u8,
}

/// How many bytes stand before the memory of each block, to keep its size there. It is the greatest alignment that the library
/// asks for.
const HEAD: usize = 16;

/// What the pointer of a refused request points to. Nobody reads or writes there.
static NOWHERE: u8 = 0;

/// Returns the layout of a block with room for its size and for `size` bytes; `None` where it would be too large.
fn layout_with_head(size: usize) -> Option<Layout> {
    Layout::from_size_align(size.checked_add(HEAD)?, HEAD).ok()
}

/// Returns the layout of a block with room for its size and for `size` bytes at an alignment; `None` where it would be too large,
/// or the alignment is above 16.
fn layout_for_alignment(size: usize, alignment: usize) -> Option<Layout> {
    layout_with_head(size).filter(|_| alignment <= HEAD)
}

/// Answers a request for `size` bytes: writes the size at the start of `block`, a new one, and returns the pointer to its
/// memory. Where `block` is null the request was refused.
fn answer_request(block: *mut u8, size: usize) -> Tried {
    if block.is_null() {
        return Tried {
            ok: false,
            at: ptr::from_ref(&NOWHERE).cast_mut(),
        };
    }
    // SAFETY: the block has room for its head, aligned to it.
    unsafe {
        block.cast::<usize>().write(size);
        Tried {
            ok: true,
            at: block.add(HEAD),
        }
    }
}

/// Gives the library `size` bytes of memory. Refused where the program's allocator has none, or the alignment is above 16.
#[unsafe(no_mangle)]
extern "C" fn rattle_alloc(size: usize, alignment: usize) -> Tried {
    let layout = layout_for_alignment(size, alignment);
    // SAFETY: the layout isn't empty.
    let block = layout.map_or(ptr::null_mut(), |layout| unsafe { alloc(layout) });
    answer_request(block, size)
}

/// Gives the library memory of `size` bytes in place of a block that it has. As many bytes of that block as fit are moved there.
/// Where it is refused the block stays as it is.
#[unsafe(no_mangle)]
unsafe extern "C" fn rattle_realloc(
    at: *mut u8,
    _kept: usize,
    size: usize,
    alignment: usize,
) -> Tried {
    // SAFETY: the block came from `answer_request`, so its head says its size.
    unsafe {
        let block = at.sub(HEAD);
        let old = block.cast::<usize>().read();
        match (layout_with_head(old), layout_for_alignment(size, alignment)) {
            (Some(old), Some(new)) => answer_request(realloc(block, old, new.size()), size),
            _ => answer_request(ptr::null_mut(), size),
        }
    }
}

/// Frees a block that the library had.
#[unsafe(no_mangle)]
unsafe extern "C" fn rattle_dealloc(at: *mut u8) {
    // SAFETY: the block came from `answer_request`, so its head says its size.
    unsafe {
        let block = at.sub(HEAD);
        if let Some(layout) = layout_with_head(block.cast::<usize>().read()) {
            dealloc(block, layout);
        }
    }
}
