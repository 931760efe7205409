//! Lists that a call of the library fills in.

use crate::{Error, Pair, Result};
use std::alloc::{Layout, handle_alloc_error};

/// Has `call` fill a list, and returns it. `call` gets room, a pointer and a length, puts as much of the list there as fits,
/// and sets a count to how long the whole list is. Where it is longer than the room `call` is made again, with more room.
///
/// # Errors
///
/// Those of `call`; `Memory`.
pub(super) fn fill_list<T: Copy + Default>(
    call: impl FnMut(*mut T, usize, &mut usize) -> Result<()>,
) -> Result<Vec<T>> {
    fill_list_with_room(Vec::new(), call)
}

/// Has `call` fill a list, and returns it, as [`fill_list`] does. `call` gets `room` first, so it is made once where the list
/// isn't longer than that.
///
/// # Errors
///
/// Those of `call`; `Memory`.
pub(super) fn fill_list_with_room<T: Copy + Default>(
    mut room: Vec<T>,
    mut call: impl FnMut(*mut T, usize, &mut usize) -> Result<()>,
) -> Result<Vec<T>> {
    loop {
        let mut count = 0;
        call(room.as_mut_ptr(), room.len(), &mut count)?;
        if count <= room.len() {
            room.truncate(count);
            return Ok(room);
        }
        make_room(&mut room, count)?;
    }
}

/// Lengthens `room` to `count` items at least, with default ones.
///
/// # Errors
///
/// `Memory`.
pub(super) fn make_room<T: Copy + Default>(room: &mut Vec<T>, count: usize) -> Result<()> {
    let more = count.saturating_sub(room.len());
    room.try_reserve_exact(more).map_err(|_| Error::memory())?;
    room.resize(room.len() + more, T::default());
    Ok(())
}

/// Has `call` fill a list, and returns it, as [`fill_list`] does; `None` where `call` returns false, since there is no such
/// list. Without memory for the list the program ends, as it does where a `Vec` grows.
pub(super) fn fill_list_if_found<T: Copy + Default>(
    mut call: impl FnMut(*mut T, usize, &mut usize) -> bool,
) -> Option<Vec<T>> {
    let mut is_found = false;
    let list = fill_list(|room, len, count| {
        is_found = call(room, len, count);
        Ok(())
    });
    match list {
        Ok(list) => is_found.then_some(list),
        Err(_) => handle_alloc_error(Layout::new::<T>()),
    }
}

/// Keys with their values, as the library lists them.
#[derive(Clone, Debug, Default)]
pub(crate) struct PackedPairs {
    /// The length in bytes of each key and of its value, in turn.
    pub(crate) lens: Vec<usize>,
    /// The bytes of all keys and values, one behind the other.
    pub(crate) bytes: Vec<u8>,
}

/// Has `call` list keys with their values, and returns them packed. `call` gets room for their lengths and room for their
/// bytes, puts there as much as fits, and sets how many of each there are. Where there are more it is made again, with more
/// room.
///
/// # Errors
///
/// Those of `call`; `Memory`.
pub(super) fn fill_packed_pairs(
    mut call: impl FnMut(*mut usize, usize, &mut usize, *mut u8, usize, &mut usize) -> Result<()>,
) -> Result<PackedPairs> {
    let (mut lens, mut bytes) = (Vec::new(), Vec::new());
    loop {
        let (mut count, mut len) = (0, 0);
        call(
            lens.as_mut_ptr(),
            lens.len(),
            &mut count,
            bytes.as_mut_ptr(),
            bytes.len(),
            &mut len,
        )?;
        if count <= lens.len() && len <= bytes.len() {
            lens.truncate(count);
            return Ok(PackedPairs { lens, bytes });
        }
        make_room(&mut lens, count)?;
        make_room(&mut bytes, len)?;
    }
}

/// Has `call` list keys with their values, as [`fill_packed_pairs`] does, and returns each pair with bytes of its own.
///
/// # Errors
///
/// Those of `call`; `Memory`.
pub(super) fn fill_pairs(
    call: impl FnMut(*mut usize, usize, &mut usize, *mut u8, usize, &mut usize) -> Result<()>,
) -> Result<Vec<Pair>> {
    let PackedPairs { lens, bytes } = fill_packed_pairs(call)?;
    let mut rest = &bytes[..];
    let mut next = |len| {
        let (front, behind) = rest.split_at(len);
        rest = behind;
        front.to_vec()
    };
    let pairs = lens.chunks_exact(2).map(|lens| Pair {
        key: next(lens[0]),
        value: next(lens[1]),
    });
    Ok(pairs.collect())
}
