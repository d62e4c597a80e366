//! The entry points of liblaps.a: each calls a walk again and again, inside the library, and sums up
//! one number of each item.

extern "C" {
    fn laps_rebase(stream: *const u8, stream_length: usize, size: u8, limit: u64) -> u64;
    fn laps_bind(stream: *const u8, stream_length: usize, size: u8, limit: u64) -> u64;
    fn laps_pages(
        fixups: *const u8,
        fixups_length: usize,
        contents: *const u8,
        contents_length: usize,
        base: u64,
        limit: u64,
    ) -> u64;
    fn laps_trie(
        trie: *const u8,
        trie_length: usize,
        name: *mut u8,
        name_length: usize,
        limit: u64,
    ) -> u64;
}

/// The offsets of a rebase stream.
pub fn rebase(stream: &[u8], size: u8) -> u64 {
    // SAFETY: the slices are lent for the call.
    unsafe { laps_rebase(stream.as_ptr(), stream.len(), size, u64::MAX) }
}

/// The offsets of a stream of plain binds.
pub fn bind(stream: &[u8], size: u8) -> u64 {
    // SAFETY: the slices are lent for the call.
    unsafe { laps_bind(stream.as_ptr(), stream.len(), size, u64::MAX) }
}

/// The places of the first segment's fixups.
pub fn pages(fixups: &[u8], contents: &[u8], base: u64) -> u64 {
    // SAFETY: the slices are lent for the call.
    unsafe {
        laps_pages(
            fixups.as_ptr(),
            fixups.len(),
            contents.as_ptr(),
            contents.len(),
            base,
            u64::MAX,
        )
    }
}

/// The lengths of the names of a trie's exports.
pub fn trie(trie: &[u8], name: &mut [u8]) -> u64 {
    // SAFETY: the slices are lent for the call, and the one that is written to no one else.
    unsafe {
        laps_trie(
            trie.as_ptr(),
            trie.len(),
            name.as_mut_ptr(),
            name.len(),
            u64::MAX,
        )
    }
}
