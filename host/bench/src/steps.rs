//! The same sums, step by step through the C boundary: state and item are records of bytes. And
//! preflights, each of which is one call.

use brinetrellis::{answer, raw, record};

fn word(record: &[u8], index: usize) -> u64 {
    let mut bytes = [0; 8];
    bytes.copy_from_slice(&record[8 * index..8 * (index + 1)]);
    u64::from_le_bytes(bytes)
}

/// Calls until there is no item. A call answers its number and, with an item, what counts of it.
fn sum(mut call: impl FnMut() -> (u64, u64)) -> u64 {
    let mut sum = 0u64;
    loop {
        match call() {
            (answer::ITEM, value) => sum = sum.wrapping_add(value),
            _ => return sum,
        }
    }
}

/// A start, or the one segment: nothing is timed that is refused.
fn answered(answer: u64) {
    assert_eq!(answer, answer::ITEM);
}

pub fn rebase(stream: &[u8], size: u8) -> u64 {
    let (mut state, mut item) = ([0; record::REBASE_STATE], [0; record::REBASE_ITEM]);
    answered(raw::rebase_start(size.into(), &mut state));
    sum(|| {
        let answer = raw::rebase_step(stream, &mut state, &mut item);
        (answer, word(&item, 1))
    })
}

pub fn bind(stream: &[u8], size: u8) -> u64 {
    let (mut state, mut item) = ([0; record::BIND_STATE], [0; record::BIND_ITEM]);
    answered(raw::bind_plain(size.into(), &mut state));
    sum(|| {
        let answer = raw::bind_step(stream, &mut state, &mut item);
        (answer, word(&item, 1))
    })
}

pub fn trie(trie: &[u8], name: &mut [u8]) -> u64 {
    let (mut state, mut item) = ([0; record::TRIE_STATE], [0; record::TRIE_ITEM]);
    answered(raw::trie_start(&mut state));
    sum(|| {
        let answer = raw::trie_step(trie, &mut state, name, u64::MAX, &mut item);
        (answer, word(&item, 1))
    })
}

pub fn pages(fixups: &[u8], contents: &[u8], base: u64) -> u64 {
    let (mut state, mut segment) = ([0; record::SEGMENT_STATE], [0; record::SEGMENT_ITEM]);
    answered(raw::segment_start(fixups, &mut state));
    answered(raw::segment_step(fixups, &mut state, &mut segment));
    let (mut state, mut item) = ([0; record::PAGE_STATE], [0; record::PAGE_ITEM]);
    answered(raw::page_start(fixups, &segment, base, &mut state));
    sum(|| {
        let answer = raw::page_step(fixups, contents, &mut state, &mut item);
        (answer, word(&item, 0))
    })
}

pub fn segments(fixups: &[u8]) -> u64 {
    let (mut state, mut item) = ([0; record::SEGMENT_STATE], [0; record::SEGMENT_ITEM]);
    answered(raw::segment_start(fixups, &mut state));
    sum(|| {
        let answer = raw::segment_step(fixups, &mut state, &mut item);
        (answer, word(&item, 3))
    })
}

pub fn imports(fixups: &[u8]) -> u64 {
    let (mut state, mut item) = ([0; record::IMPORT_STATE], [0; record::IMPORT_ITEM]);
    answered(raw::import_start(fixups, &mut state));
    sum(|| {
        let answer = raw::import_step(fixups, &mut state, &mut item);
        (answer, word(&item, 4))
    })
}

/// The verdict of a preflight: its number, and the two words of its record.
pub fn preflight_rebase(stream: &[u8], size: u8, sizes: &[u8]) -> [u64; 3] {
    verdict(|record| raw::preflight_rebase(stream, size.into(), sizes, record))
}

pub fn preflight_plain(stream: &[u8], size: u8, sizes: &[u8]) -> [u64; 3] {
    verdict(|record| raw::preflight_plain(stream, size.into(), sizes, record))
}

fn verdict(call: impl FnOnce(&mut [u8]) -> u64) -> [u64; 3] {
    let mut record = [0; record::VERDICT];
    [call(&mut record), word(&record, 0), word(&record, 1)]
}
