//! The lengths of records in bytes, and their words.

use crate::Error;

/// The state of a rebase walk.
pub const REBASE_STATE: usize = 80;
/// A place of a rebase stream.
pub const REBASE_ITEM: usize = 24;
/// The state of a bind walk.
pub const BIND_STATE: usize = 144;
/// A place of a bind stream.
pub const BIND_ITEM: usize = 64;
/// What a preflight says.
pub const VERDICT: usize = 16;
/// The state of a walk over an exports trie.
pub const TRIE_STATE: usize = 6416;
/// An export.
pub const TRIE_ITEM: usize = 72;
/// The state of a walk over the segments of chained fixups.
pub const SEGMENT_STATE: usize = 24;
/// What chained fixups know of a segment.
pub const SEGMENT_ITEM: usize = 64;
/// The state of a walk over the fixups of a segment.
pub const PAGE_STATE: usize = 128;
/// A fixup.
pub const PAGE_ITEM: usize = 40;
/// The state of a walk over the imports of chained fixups.
pub const IMPORT_STATE: usize = 40;
/// An import.
pub const IMPORT_ITEM: usize = 40;
/// A part of lent bytes.
pub const PART: usize = 16;

/// How many nodes of a trie may be open at once.
pub const OPEN_NODES: usize = 256;

/// The bytes of a word.
const WORD: usize = 8;

/// The word of an index.
pub(crate) fn word(record: &[u8], index: usize) -> u64 {
    let mut bytes = [0; WORD];
    bytes.copy_from_slice(&record[WORD * index..WORD * (index + 1)]);
    u64::from_le_bytes(bytes)
}

/// The word of an index, of two's complement.
pub(crate) fn signed(record: &[u8], index: usize) -> i64 {
    word(record, index) as i64
}

/// The word of an index, which fits a type with fewer bits.
pub(crate) fn narrow<T: TryFrom<u64>>(record: &[u8], index: usize) -> Result<T, Error> {
    let value = word(record, index);
    T::try_from(value).map_err(|_| Error::unknown(FIELD, value))
}

/// The word of an index, which is a signed number of 32 bits.
pub(crate) fn narrow_signed(record: &[u8], index: usize) -> Result<i32, Error> {
    let value = signed(record, index);
    i32::try_from(value).map_err(|_| Error::unknown(FIELD, value as u64))
}

/// What the library writes no value of that a field's type does not have.
pub(crate) const FIELD: &str = "value of a field";

/// Words one behind the other, as many as fit.
pub(crate) fn write_words(words: &[u64], record: &mut [u8]) {
    for (bytes, word) in record.chunks_exact_mut(WORD).zip(words) {
        bytes.copy_from_slice(&word.to_le_bytes());
    }
}
