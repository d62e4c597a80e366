//! Chained fixups: the bytes of the load command and the contents of a segment.

use crate::random::Random;

/// What a case of chained fixups is made of.
#[derive(Debug, Default)]
pub struct Fixups {
    pub bytes: Vec<u8>,
    pub contents: Vec<u8>,
    pub base: u64,
}

/// The length of the header.
pub const HEADER: usize = 28;
/// The length of a segment's record without its starts.
pub const RECORD: usize = 22;

fn put(bytes: &mut Vec<u8>, value: u64, width: usize) {
    bytes.extend_from_slice(&value.to_le_bytes()[..width]);
}

/// Writes a value over the bytes at a place.
pub fn set(bytes: &mut [u8], at: usize, value: u64, width: usize) {
    bytes[at..at + width].copy_from_slice(&value.to_le_bytes()[..width]);
}

fn format(random: &mut Random) -> u64 {
    match random.below(24) {
        0 => random.pick(&[0, 1, 4, 5, 7, 8, 9, 10, 11, 12, 13, 14, 15, 0xffff]),
        1..=8 => 3,
        9..=16 => 2,
        _ => 6,
    }
}

/// How far apart the pointers of a format lie, in fours.
fn stride(format: u64) -> usize {
    if format == 3 {
        1
    } else {
        2
    }
}

/// A page's start, or an entry of its list.
fn start(random: &mut Random, format: u64, count: usize) -> u64 {
    match random.below(24) {
        0 => 0xffff,
        1..=6 => 0x8000 | random.below(count + 1) as u64,
        7 => 0x8000 | random.byte() as u64,
        8 => random.next() & 0xffff,
        9 => 4 * random.below(16) as u64,
        _ => (4 * stride(format) * random.below(8)) as u64,
    }
}

/// A segment's record with its starts.
fn record(random: &mut Random, format: u64, bytes: &mut Vec<u8>) {
    let count = if random.once_in(8) {
        0
    } else {
        1 + random.below(7)
    };
    let odd = usize::from(random.once_in(8));
    let pages = match random.below(12) {
        0 => 0,
        1 => count + 1,
        _ => 1 + random.below(count.max(1)),
    };
    put(bytes, (RECORD + 2 * count + odd) as u64, 4);
    put(
        bytes,
        random.pick(&[0, 8, 16, 16, 24, 32, 64, 0x1000, 0x4000, 0xffff]),
        2,
    );
    put(bytes, format, 2);
    put(bytes, random.next(), 8);
    put(bytes, random.next(), 4);
    put(bytes, pages as u64, 2);
    for _ in 0..count {
        put(bytes, start(random, format, count), 2);
    }
    bytes.resize(bytes.len() + odd, 0);
}

/// The starts: how many segments, where their records are, and the records.
fn starts(random: &mut Random, format: u64, bytes: &mut Vec<u8>) {
    let (count, first) = (random.below(4), bytes.len());
    put(bytes, count as u64, 4);
    bytes.resize(bytes.len() + 4 * count, 0);
    for segment in 0..count {
        if random.once_in(5) {
            continue;
        }
        let offset = match random.below(24) {
            0 => random.next() & 0xff,
            _ => (bytes.len() - first) as u64,
        };
        set(bytes, first + 4 + 4 * segment, offset, 4);
        record(random, format, bytes);
    }
}

fn import(random: &mut Random, format: u64, names: u64, bytes: &mut Vec<u8>) {
    let any = random.next();
    let name = if random.once_in(16) {
        random.number()
    } else {
        random.below(names as usize) as u64
    };
    if format == 3 {
        let library = random.pick(&[any & 0xffff, 1, 0xfff0, 0xfff1, 0xfffe, 0xffff]);
        put(bytes, library | any & 0xffff_0000 | name << 32, 8);
        put(bytes, random.number(), 8);
    } else {
        let library = random.pick(&[any & 0xff, 1, 0xf0, 0xf1, 0xfe, 0xff]);
        put(bytes, library | any & 0x100 | name << 9, 4);
        if format == 2 {
            put(bytes, random.number(), 4);
        }
    }
}

/// Notes in a field of the header that something begins here.
fn mark(bytes: &mut [u8], field: usize) {
    let here = bytes.len() as u64;
    set(bytes, field, here, 4);
}

/// The bytes of the load command.
fn command(random: &mut Random, pointers: u64, bytes: &mut Vec<u8>) {
    let format = random.pick(&[1, 1, 1, 2, 2, 2, 3, 3, 3, 0, 4, 0xffff_ffff]);
    bytes.clear();
    bytes.resize(HEADER + random.below(10).saturating_sub(6), 0);
    mark(bytes, 4);
    starts(random, pointers, bytes);
    let (count, symbols) = (random.below(4), 1 + random.below(12));
    mark(bytes, 8);
    for _ in 0..count {
        import(random, format, symbols as u64, bytes);
    }
    mark(bytes, 12);
    for _ in 0..symbols {
        bytes.push(random.pick(b"_ab\0\xff"));
    }
    if !random.once_in(12) {
        bytes.push(0);
    }
    let more = u64::from(random.once_in(12));
    set(bytes, 16, count as u64 + more, 4);
    set(bytes, 20, format, 4);
    if random.once_in(24) {
        let values = [0, 1, 28, 0xffff_ffff, bytes.len() as u64];
        set(
            bytes,
            random.pick(&[0, 4, 8, 12, 16, 20, 24]),
            random.pick(&values),
            4,
        );
    }
}

/// How far the next pointer is, in fours: mostly near, so that it is one of those that were made.
fn next(random: &mut Random, format: u64) -> u64 {
    match random.below(32) {
        0 => random.pick(&[31, 2047, 2048, 2049, 4095]),
        1 => random.next() & 0xfff,
        2 => random.below(7) as u64,
        _ => (stride(format) * random.below(5)) as u64,
    }
}

/// Pointers, one behind the other.
fn contents(random: &mut Random, format: u64, length: usize, bytes: &mut Vec<u8>) {
    bytes.clear();
    while bytes.len() < length {
        let (any, next) = (random.next(), next(random, format));
        if format == 3 {
            put(bytes, any & !(31 << 26) | (next & 31) << 26, 4);
        } else {
            put(bytes, any & !(0xfff << 51) | next << 51, 8);
        }
    }
    bytes.truncate(length);
}

impl Fixups {
    /// Makes other fixups; seldom with contents so long that far pointers have data behind them.
    pub fn make(&mut self, random: &mut Random) {
        let format = format(random);
        let length = if random.once_in(400) {
            33_000
        } else {
            random.below(280)
        };
        command(random, format, &mut self.bytes);
        contents(random, format, length, &mut self.contents);
        self.base = random.pick(&[0, 1, 0x4000, 0x1_0000_0000, u64::MAX]);
        if random.once_in(4) {
            self.base = random.next();
        }
    }
}
