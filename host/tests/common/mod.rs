//! The documented samples, and bytes made by hand.

#![allow(dead_code)] // each test takes what it needs

pub mod entries;
pub mod lines;
pub mod program;
pub mod recorded;

/// Type 1; segment 2 at offset 16; three pointers; Done. Of pointer size 8.
pub const S1: &[u8] = &[0x11, 0x22, 0x10, 0x53, 0x00];

/// Library 1; the name `_a`; type 1; segment 2 at offset 8; one bind. A plain stream of pointer size 8.
pub const S2: &[u8] = &[0x11, 0x40, 0x5f, 0x61, 0x00, 0x51, 0x72, 0x08, 0x90];

/// None at all, though nothing is set.
pub const S3: &[u8] = &[0x60, 0x00];

/// One pointer, though nothing is set.
pub const S4: &[u8] = &[0x51];

/// Two edges from the root, `ab` at 2 and `c` at 6, lead to one node at 9, with the flags 1 and the
/// address 16.
pub const SHARED: &[u8] = b"\x00\x02ab\x00\x09c\x00\x09\x02\x01\x10\x00";

/// So many nodes of five bytes, each with one child at the end of an empty edge, the next one; the
/// offset is spelled with two bytes. The last has no child, and exports 7.
pub fn chain(nodes: usize) -> Vec<u8> {
    let mut trie = Vec::new();
    for next in (1..nodes).map(|node| 5 * node) {
        let low = 0x80 | (next % 128) as u8;
        trie.extend([0x00, 0x01, 0x00, low, (next / 128) as u8]);
    }
    trie.extend([0x02, 0x00, 0x07, 0x00]);
    trie
}

/// A trie of 43 nodes with two edges each, both to the next node, and a last node without any. No
/// node exports, and 2^43 ways lead to the last.
pub fn hanging() -> Vec<u8> {
    let mut trie = Vec::new();
    for _ in 0..43 {
        // Below 128 an offset has one byte, from there on two.
        let child = trie.len() + 8;
        let offset = match child {
            0..=127 => vec![child as u8],
            _ => vec![(child + 2) as u8 | 0x80, ((child + 2) >> 7) as u8],
        };
        let edges = [b"a\0", &offset[..], b"b\0", &offset[..]].concat();
        trie.extend([&[0x00, 0x02][..], &edges].concat());
    }
    trie.extend([0x00, 0x00]);
    trie
}

/// A trie with one export, of the flags 0 and the address 5, whose name has so many bytes. Its edge
/// begins at 2; behind the NUL the offset of the node takes three bytes.
pub fn long_name(length: usize) -> Vec<u8> {
    let node = 2 + length + 1 + 3;
    let offset = [
        0x80 | node as u8,
        0x80 | (node >> 7) as u8,
        (node >> 14) as u8,
    ];
    [
        b"\x00\x01",
        &vec![b'a'; length][..],
        b"\0",
        &offset,
        b"\x02\x00\x05\x00",
    ]
    .concat()
}

pub fn u16s(values: &[u16]) -> Vec<u8> {
    values.iter().flat_map(|v| v.to_le_bytes()).collect()
}

pub fn u32s(values: &[u32]) -> Vec<u8> {
    values.iter().flat_map(|v| v.to_le_bytes()).collect()
}

pub fn u64s(values: &[u64]) -> Vec<u8> {
    values.iter().flat_map(|v| v.to_le_bytes()).collect()
}

/// The words of a record.
pub fn words(record: &[u8]) -> Vec<u64> {
    assert_eq!(record.len() % 8, 0);
    let word = |bytes: &[u8]| u64::from_le_bytes(bytes.try_into().expect("eight bytes"));
    record.chunks(8).map(word).collect()
}

/// A record with another word.
pub fn put(record: &mut [u8], index: usize, word: u64) {
    record[8 * index..8 * (index + 1)].copy_from_slice(&word.to_le_bytes());
}

/// The record of a segment with chained fixups at the offset 0x4000, with pages of 0x1000 bytes: 22
/// bytes, and its starts.
pub fn record(format: u16, pages: u16, starts: &[u16]) -> Vec<u8> {
    let size = 22 + 2 * starts.len() as u32;
    [
        u32s(&[size]),
        u16s(&[0x1000, format]),
        u64s(&[0x4000]),
        u32s(&[0]),
        u16s(&[pages]),
        u16s(starts),
    ]
    .concat()
}

/// Chained fixups without imports: the header; at 28 the starts, a count and the offsets of segments
/// from 28; and behind them a record.
pub fn with_starts(offsets: &[u32], record: &[u8]) -> Vec<u8> {
    let header = u32s(&[0, 28, 0, 0, 0, 1, 0]);
    let count = u32s(&[offsets.len() as u32]);
    [&header[..], &count, &u32s(offsets), record].concat()
}

/// Chained fixups with one segment and no imports: its record at 28 + 8 = 36; its starts at 36 + 22 =
/// 58.
pub fn one_segment(format: u16, pages: u16, starts: &[u16]) -> Vec<u8> {
    with_starts(&[8], &record(format, pages, starts))
}

/// Chained fixups with imports and no segment: the header; at 28 the starts, a count of 0; at 32 the
/// imports; and the symbols behind them.
pub fn with_imports(format: u32, count: u32, imports: &[u8], symbols: &[u8]) -> Vec<u8> {
    let behind = 32 + imports.len() as u32;
    let header = u32s(&[0, 28, 32, behind, count, format, 0]);
    [&header[..], &u32s(&[0]), imports, symbols].concat()
}

/// Chained fixups of three segments, of which the second has fixups, and two imports: the header; at
/// 28 the starts, a count and the offsets 0, 16 and 0; at 44 the record of 24 bytes, with the start 8
/// at 66; at 68 two imports of four bytes, `_a` of library 1 and weak `_b` of library 0xfe, which is
/// -2; at 76 the symbols, with `_a` at their offset 1 and `_b` at 4.
pub fn sample() -> Vec<u8> {
    [
        u32s(&[0, 28, 68, 76, 2, 1, 0]),
        u32s(&[3, 0, 16, 0]),
        record(2, 1, &[8]),
        u32s(&[0x01 | 1 << 9, 0xfe | 1 << 8 | 4 << 9]),
        b"\0_a\0_b\0".to_vec(),
    ]
    .concat()
}

/// The bytes of that segment: at 8 a rebase with target 0x1234, high8 0x56 and next 2, so that 8
/// bytes on, at 16, is a bind of ordinal 1 with the addend 7, and next 0.
pub fn contents() -> Vec<u8> {
    let rebase = 0x1234 | 0x56 << 36 | 2 << 51;
    let bind = 1 | 7 << 24 | 1 << 63;
    u64s(&[0, rebase, bind])
}
