//! The entry points of libbrinetrellis.a, one function each, on numbers and byte slices. The header
//! include/brinetrellis.h says what they answer and what the records hold.
//!
//! Each is safe: by its contract an entry point answers for slices of any length, reads and writes in
//! them alone, and keeps none of them. All `unsafe` of this crate is here.
//!
//! ```
//! use brinetrellis::{answer, raw, record};
//!
//! let (mut state, mut item) = ([0; record::REBASE_STATE], [0; record::REBASE_ITEM]);
//! assert_eq!(raw::rebase_start(8, &mut state), answer::ITEM);
//! assert_eq!(raw::rebase_step(&[0x60, 0x00], &mut state, &mut item), answer::END);
//! ```

#![allow(unsafe_code)]

extern "C" {
    fn brinetrellis_rebase_start(pointer_size: u64, state: *mut u8, state_length: usize) -> u64;
    fn brinetrellis_rebase_step(
        stream: *const u8,
        stream_length: usize,
        state: *mut u8,
        state_length: usize,
        item: *mut u8,
        item_length: usize,
    ) -> u64;
    fn brinetrellis_bind_plain(pointer_size: u64, state: *mut u8, state_length: usize) -> u64;
    fn brinetrellis_bind_weak(pointer_size: u64, state: *mut u8, state_length: usize) -> u64;
    fn brinetrellis_bind_lazy(pointer_size: u64, state: *mut u8, state_length: usize) -> u64;
    fn brinetrellis_bind_step(
        stream: *const u8,
        stream_length: usize,
        state: *mut u8,
        state_length: usize,
        item: *mut u8,
        item_length: usize,
    ) -> u64;
    fn brinetrellis_preflight_rebase(
        stream: *const u8,
        stream_length: usize,
        pointer_size: u64,
        sizes: *const u8,
        sizes_length: usize,
        verdict: *mut u8,
        verdict_length: usize,
    ) -> u64;
    fn brinetrellis_preflight_plain(
        stream: *const u8,
        stream_length: usize,
        pointer_size: u64,
        sizes: *const u8,
        sizes_length: usize,
        verdict: *mut u8,
        verdict_length: usize,
    ) -> u64;
    fn brinetrellis_preflight_weak(
        stream: *const u8,
        stream_length: usize,
        pointer_size: u64,
        sizes: *const u8,
        sizes_length: usize,
        verdict: *mut u8,
        verdict_length: usize,
    ) -> u64;
    fn brinetrellis_preflight_lazy(
        stream: *const u8,
        stream_length: usize,
        pointer_size: u64,
        sizes: *const u8,
        sizes_length: usize,
        verdict: *mut u8,
        verdict_length: usize,
    ) -> u64;
    fn brinetrellis_trie_start(state: *mut u8, state_length: usize) -> u64;
    fn brinetrellis_trie_step(
        trie: *const u8,
        trie_length: usize,
        state: *mut u8,
        state_length: usize,
        name: *mut u8,
        name_length: usize,
        limit: u64,
        item: *mut u8,
        item_length: usize,
    ) -> u64;
    fn brinetrellis_segment_start(
        fixups: *const u8,
        fixups_length: usize,
        state: *mut u8,
        state_length: usize,
    ) -> u64;
    fn brinetrellis_segment_step(
        fixups: *const u8,
        fixups_length: usize,
        state: *mut u8,
        state_length: usize,
        item: *mut u8,
        item_length: usize,
    ) -> u64;
    fn brinetrellis_page_start(
        fixups: *const u8,
        fixups_length: usize,
        segment: *const u8,
        segment_length: usize,
        base: u64,
        state: *mut u8,
        state_length: usize,
    ) -> u64;
    fn brinetrellis_page_step(
        fixups: *const u8,
        fixups_length: usize,
        contents: *const u8,
        contents_length: usize,
        state: *mut u8,
        state_length: usize,
        item: *mut u8,
        item_length: usize,
    ) -> u64;
    fn brinetrellis_import_start(
        fixups: *const u8,
        fixups_length: usize,
        state: *mut u8,
        state_length: usize,
    ) -> u64;
    fn brinetrellis_import_step(
        fixups: *const u8,
        fixups_length: usize,
        state: *mut u8,
        state_length: usize,
        item: *mut u8,
        item_length: usize,
    ) -> u64;
    fn brinetrellis_name(
        bytes: *const u8,
        bytes_length: usize,
        position: u64,
        length: u64,
        part: *mut u8,
        part_length: usize,
    ) -> u64;
}

/// Begins a walk over a rebase stream of a pointer size.
#[must_use]
pub fn rebase_start(pointer_size: u64, state: &mut [u8]) -> u64 {
    // SAFETY: the slices are lent for the call, and those that are written to no one else.
    unsafe { brinetrellis_rebase_start(pointer_size, state.as_mut_ptr(), state.len()) }
}

/// The next place of a rebase stream.
#[must_use]
pub fn rebase_step(stream: &[u8], state: &mut [u8], item: &mut [u8]) -> u64 {
    // SAFETY: the slices are lent for the call, and those that are written to no one else.
    unsafe {
        brinetrellis_rebase_step(
            stream.as_ptr(),
            stream.len(),
            state.as_mut_ptr(),
            state.len(),
            item.as_mut_ptr(),
            item.len(),
        )
    }
}

/// Begins a walk over a stream of plain binds, of a pointer size.
#[must_use]
pub fn bind_plain(pointer_size: u64, state: &mut [u8]) -> u64 {
    // SAFETY: the slices are lent for the call, and those that are written to no one else.
    unsafe { brinetrellis_bind_plain(pointer_size, state.as_mut_ptr(), state.len()) }
}

/// Begins a walk over a stream of weak binds, of a pointer size.
#[must_use]
pub fn bind_weak(pointer_size: u64, state: &mut [u8]) -> u64 {
    // SAFETY: the slices are lent for the call, and those that are written to no one else.
    unsafe { brinetrellis_bind_weak(pointer_size, state.as_mut_ptr(), state.len()) }
}

/// Begins a walk over a stream of lazy binds, of a pointer size.
#[must_use]
pub fn bind_lazy(pointer_size: u64, state: &mut [u8]) -> u64 {
    // SAFETY: the slices are lent for the call, and those that are written to no one else.
    unsafe { brinetrellis_bind_lazy(pointer_size, state.as_mut_ptr(), state.len()) }
}

/// The next place of a bind stream.
#[must_use]
pub fn bind_step(stream: &[u8], state: &mut [u8], item: &mut [u8]) -> u64 {
    // SAFETY: the slices are lent for the call, and those that are written to no one else.
    unsafe {
        brinetrellis_bind_step(
            stream.as_ptr(),
            stream.len(),
            state.as_mut_ptr(),
            state.len(),
            item.as_mut_ptr(),
            item.len(),
        )
    }
}

/// The preflight of a rebase stream.
#[must_use]
pub fn preflight_rebase(stream: &[u8], pointer_size: u64, sizes: &[u8], verdict: &mut [u8]) -> u64 {
    // SAFETY: the slices are lent for the call, and those that are written to no one else.
    unsafe {
        brinetrellis_preflight_rebase(
            stream.as_ptr(),
            stream.len(),
            pointer_size,
            sizes.as_ptr(),
            sizes.len(),
            verdict.as_mut_ptr(),
            verdict.len(),
        )
    }
}

/// The preflight of a stream of plain binds.
#[must_use]
pub fn preflight_plain(stream: &[u8], pointer_size: u64, sizes: &[u8], verdict: &mut [u8]) -> u64 {
    // SAFETY: the slices are lent for the call, and those that are written to no one else.
    unsafe {
        brinetrellis_preflight_plain(
            stream.as_ptr(),
            stream.len(),
            pointer_size,
            sizes.as_ptr(),
            sizes.len(),
            verdict.as_mut_ptr(),
            verdict.len(),
        )
    }
}

/// The preflight of a stream of weak binds.
#[must_use]
pub fn preflight_weak(stream: &[u8], pointer_size: u64, sizes: &[u8], verdict: &mut [u8]) -> u64 {
    // SAFETY: the slices are lent for the call, and those that are written to no one else.
    unsafe {
        brinetrellis_preflight_weak(
            stream.as_ptr(),
            stream.len(),
            pointer_size,
            sizes.as_ptr(),
            sizes.len(),
            verdict.as_mut_ptr(),
            verdict.len(),
        )
    }
}

/// The preflight of a stream of lazy binds.
#[must_use]
pub fn preflight_lazy(stream: &[u8], pointer_size: u64, sizes: &[u8], verdict: &mut [u8]) -> u64 {
    // SAFETY: the slices are lent for the call, and those that are written to no one else.
    unsafe {
        brinetrellis_preflight_lazy(
            stream.as_ptr(),
            stream.len(),
            pointer_size,
            sizes.as_ptr(),
            sizes.len(),
            verdict.as_mut_ptr(),
            verdict.len(),
        )
    }
}

/// Begins a walk over an exports trie.
#[must_use]
pub fn trie_start(state: &mut [u8]) -> u64 {
    // SAFETY: the slices are lent for the call, and those that are written to no one else.
    unsafe { brinetrellis_trie_start(state.as_mut_ptr(), state.len()) }
}

/// The next export of a trie, if it is found within `limit` nodes.
#[must_use]
pub fn trie_step(
    trie: &[u8],
    state: &mut [u8],
    name: &mut [u8],
    limit: u64,
    item: &mut [u8],
) -> u64 {
    // SAFETY: the slices are lent for the call, and those that are written to no one else.
    unsafe {
        brinetrellis_trie_step(
            trie.as_ptr(),
            trie.len(),
            state.as_mut_ptr(),
            state.len(),
            name.as_mut_ptr(),
            name.len(),
            limit,
            item.as_mut_ptr(),
            item.len(),
        )
    }
}

/// Begins a walk over the segments of chained fixups.
#[must_use]
pub fn segment_start(fixups: &[u8], state: &mut [u8]) -> u64 {
    // SAFETY: the slices are lent for the call, and those that are written to no one else.
    unsafe {
        brinetrellis_segment_start(
            fixups.as_ptr(),
            fixups.len(),
            state.as_mut_ptr(),
            state.len(),
        )
    }
}

/// The next segment that has chained fixups.
#[must_use]
pub fn segment_step(fixups: &[u8], state: &mut [u8], item: &mut [u8]) -> u64 {
    // SAFETY: the slices are lent for the call, and those that are written to no one else.
    unsafe {
        brinetrellis_segment_step(
            fixups.as_ptr(),
            fixups.len(),
            state.as_mut_ptr(),
            state.len(),
            item.as_mut_ptr(),
            item.len(),
        )
    }
}

/// Begins a walk over the fixups of a segment, an item of the segment walk.
#[must_use]
pub fn page_start(fixups: &[u8], segment: &[u8], base: u64, state: &mut [u8]) -> u64 {
    // SAFETY: the slices are lent for the call, and those that are written to no one else.
    unsafe {
        brinetrellis_page_start(
            fixups.as_ptr(),
            fixups.len(),
            segment.as_ptr(),
            segment.len(),
            base,
            state.as_mut_ptr(),
            state.len(),
        )
    }
}

/// The next fixup of a segment, whose bytes are `contents`.
#[must_use]
pub fn page_step(fixups: &[u8], contents: &[u8], state: &mut [u8], item: &mut [u8]) -> u64 {
    // SAFETY: the slices are lent for the call, and those that are written to no one else.
    unsafe {
        brinetrellis_page_step(
            fixups.as_ptr(),
            fixups.len(),
            contents.as_ptr(),
            contents.len(),
            state.as_mut_ptr(),
            state.len(),
            item.as_mut_ptr(),
            item.len(),
        )
    }
}

/// Begins a walk over the imports of chained fixups.
#[must_use]
pub fn import_start(fixups: &[u8], state: &mut [u8]) -> u64 {
    // SAFETY: the slices are lent for the call, and those that are written to no one else.
    unsafe {
        brinetrellis_import_start(
            fixups.as_ptr(),
            fixups.len(),
            state.as_mut_ptr(),
            state.len(),
        )
    }
}

/// The next import of chained fixups.
#[must_use]
pub fn import_step(fixups: &[u8], state: &mut [u8], item: &mut [u8]) -> u64 {
    // SAFETY: the slices are lent for the call, and those that are written to no one else.
    unsafe {
        brinetrellis_import_step(
            fixups.as_ptr(),
            fixups.len(),
            state.as_mut_ptr(),
            state.len(),
            item.as_mut_ptr(),
            item.len(),
        )
    }
}

/// The part of the bytes at a position and of a length.
#[must_use]
pub fn name(bytes: &[u8], position: u64, length: u64, part: &mut [u8]) -> u64 {
    // SAFETY: the slices are lent for the call, and those that are written to no one else.
    unsafe {
        brinetrellis_name(
            bytes.as_ptr(),
            bytes.len(),
            position,
            length,
            part.as_mut_ptr(),
            part.len(),
        )
    }
}
