//! Chained fixups.

use crate::lent::Lent;

/// Version, places of starts, imports and symbols, number and format of imports, format of symbols.
fn header(starts: usize, imports: usize, symbols: usize, count: usize) -> Vec<u8> {
    let words = [0, starts, imports, symbols, count, 1, 0];
    words.into_iter().flat_map(word).collect()
}

fn word(value: usize) -> [u8; 4] {
    (value as u32).to_le_bytes()
}

const HEADER: usize = 28;

/// The bytes of a page, and the pointers that fill it.
const PAGE: u16 = 0x4000;
const POINTERS: u64 = PAGE as u64 / 8;

/// The record of a segment of pages in each of which one chain starts, at its first byte.
fn segment(offset: u64, pages: u16) -> Vec<u8> {
    let mut record = word(22 + 2 * usize::from(pages)).to_vec();
    record.extend(PAGE.to_le_bytes());
    record.extend(2u16.to_le_bytes());
    record.extend(offset.to_le_bytes());
    record.extend(word(0));
    record.extend(pages.to_le_bytes());
    record.resize(record.len() + 2 * usize::from(pages), 0);
    record
}

/// Chained fixups without imports, of segments that have so many pages each.
fn starts(segments: usize, pages: u16) -> Vec<u8> {
    let mut starts = word(segments).to_vec();
    let mut records = Vec::new();
    for index in 0..segments {
        starts.extend(word(4 + 4 * segments + records.len()));
        records.extend(segment(0x10_0000 * index as u64, pages));
    }
    starts.extend(records);
    let end = HEADER + starts.len();
    let mut fixups = header(HEADER, end, end, 0);
    fixups.extend(starts);
    fixups
}

/// Many segments, of one page each.
pub fn segments(count: usize) -> Lent {
    Lent::bytes(starts(count, 1))
}

/// A segment of pages full of pointers; every eighth pointer is bound.
pub fn pages(pages: u16) -> Lent {
    let mut lent = Lent::bytes(starts(1, pages));
    for pointer in 0..POINTERS * u64::from(pages) {
        let last = pointer % POINTERS == POINTERS - 1;
        let next = if last { 0 } else { 2u64 << 51 };
        let what = match pointer % 8 {
            7 => 1 << 63 | pointer,
            _ => lent.base + 16 * pointer,
        };
        lent.contents.extend((next | what).to_le_bytes());
    }
    lent
}

/// Many imports, of format 1, each with a name of its own.
pub fn imports(count: usize) -> Lent {
    let (mut records, mut names) = (Vec::new(), vec![0]);
    for import in 0..count {
        let library = 1 + import % 15;
        records.extend(word(names.len() << 9 | library));
        names.extend(format!("_a_symbol_of_the_library_{import:05}\0").bytes());
    }
    let symbols = HEADER + records.len();
    let mut fixups = header(symbols + names.len(), HEADER, symbols, count);
    fixups.extend([records, names].concat());
    fixups.extend(word(0));
    Lent::bytes(fixups)
}
