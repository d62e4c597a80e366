//! Opcode streams, mostly valid.

use crate::random::Random;
use oracle::Stream;

pub const STREAMS: [Stream; 4] = [Stream::Rebase, Stream::Plain, Stream::Weak, Stream::Lazy];

/// Appends an unsigned number.
pub fn uleb(mut value: u64, bytes: &mut Vec<u8>) {
    while value > 0x7f {
        bytes.push(value as u8 | 0x80);
        value >>= 7;
    }
    bytes.push(value as u8);
}

/// Appends a signed number.
pub fn sleb(mut value: i64, bytes: &mut Vec<u8>) {
    while !(-64..64).contains(&value) {
        bytes.push(value as u8 | 0x80);
        value >>= 7;
    }
    bytes.push(value as u8 & 0x7f);
}

/// Appends an unsigned number, sometimes padded.
pub fn unsigned(random: &mut Random, value: u64, bytes: &mut Vec<u8>) {
    let first = bytes.len();
    uleb(value, bytes);
    pad(random, first, 0, bytes);
}

/// Appends a signed number, sometimes padded.
fn signed(random: &mut Random, value: i64, bytes: &mut Vec<u8>) {
    let first = bytes.len();
    sleb(value, bytes);
    pad(random, first, if value < 0 { 0x7f } else { 0 }, bytes);
}

/// Pads a number that began at `first`, seldom; more seldom beyond ten bytes, which is a fault.
fn pad(random: &mut Random, first: usize, with: u8, bytes: &mut Vec<u8>) {
    if !random.once_in(24) {
        return;
    }
    let most = if random.once_in(4) { 12 } else { 10 };
    let length = bytes.len() - first;
    for _ in 0..random.below(most + 1 - length.min(most)) {
        let last = bytes.len() - 1;
        bytes[last] |= 0x80;
        bytes.push(with);
    }
}

/// How many places a repeat has: few, none, or very many.
fn count(random: &mut Random) -> u64 {
    match random.below(24) {
        0 => 0,
        1 => random.number(),
        _ => 1 + random.below(4) as u64,
    }
}

/// The type of a place: half of the time a text relocation, 2 or 3, else any.
pub fn kind(random: &mut Random) -> u8 {
    match random.below(4) {
        0 => 2,
        1 => 3,
        _ => random.byte() & 15,
    }
}

fn rebase_operation(random: &mut Random, bytes: &mut Vec<u8>) {
    let opcode = random.pick(&[1, 2, 3, 4, 5, 5, 6, 7, 8, 8]);
    let immediate = match opcode {
        1 => kind(random),
        5 => random.byte() & 3,
        _ => random.byte() & 15,
    };
    bytes.push(opcode << 4 | immediate);
    match opcode {
        2 | 3 | 7 => {
            let value = random.number();
            unsigned(random, value, bytes);
        }
        6 | 8 => {
            let count = count(random);
            unsigned(random, count, bytes);
            if opcode == 8 {
                let skip = random.number();
                unsigned(random, skip, bytes);
            }
        }
        _ => (),
    }
}

fn name(random: &mut Random, bytes: &mut Vec<u8>) {
    for _ in 0..random.below(5) {
        bytes.push(random.byte() | 1);
    }
    bytes.push(0);
}

fn bind_operation(random: &mut Random, bytes: &mut Vec<u8>) {
    let opcode = random.pick(&[1, 2, 3, 4, 5, 6, 7, 7, 8, 9, 9, 9, 10, 11, 12, 12]);
    let immediate = match opcode {
        5 => kind(random),
        _ => random.byte() & 15,
    };
    bytes.push(opcode << 4 | immediate);
    let value = random.number();
    match opcode {
        2 if random.once_in(8) => unsigned(random, value, bytes),
        2 => unsigned(random, value & 0x7fff_ffff, bytes),
        4 => name(random, bytes),
        6 => signed(random, value as i64, bytes),
        7 | 8 | 10 => unsigned(random, value, bytes),
        12 => {
            let count = count(random);
            unsigned(random, count, bytes);
            unsigned(random, value, bytes);
        }
        _ => (),
    }
}

fn operation(random: &mut Random, stream: Stream, bytes: &mut Vec<u8>) {
    match stream {
        Stream::Rebase => rebase_operation(random, bytes),
        _ => bind_operation(random, bytes),
    }
}

/// What has to be set before a place is due, now and then not all of it, in any order; where a type
/// is set from the start on, sometimes another one.
fn settings(random: &mut Random, stream: Stream, bytes: &mut Vec<u8>) {
    let needed: &[u8] = match (stream, random.once_in(2)) {
        (Stream::Rebase, _) => &[1, 2],
        (Stream::Plain, _) | (Stream::Lazy, true) => &[1, 4, 5, 7],
        (Stream::Lazy, false) => &[1, 4, 7],
        (Stream::Weak, true) => &[4, 5, 7],
        (Stream::Weak, false) => &[4, 7],
    };
    let first = random.below(needed.len());
    for turn in 0..needed.len() {
        if random.once_in(20) {
            continue;
        }
        let opcode = needed[(first + turn) % needed.len()];
        let immediate = match (stream, opcode) {
            (Stream::Rebase, 1) | (_, 5) => kind(random),
            _ => random.byte() & 15,
        };
        bytes.push(opcode << 4 | immediate);
        match (stream, opcode) {
            (Stream::Rebase, 2) | (_, 7) => {
                let offset = random.number();
                unsigned(random, offset, bytes);
            }
            (_, 4) => name(random, bytes),
            _ => (),
        }
    }
}

/// One place, which is due as soon as all is set.
fn place(stream: Stream, bytes: &mut Vec<u8>) {
    bytes.push(if stream == Stream::Rebase { 0x51 } else { 0x90 });
}

/// A stream; `dones` says how often, once in so many operations, there is a Done.
pub fn stream(random: &mut Random, stream: Stream, dones: usize, bytes: &mut Vec<u8>) {
    bytes.clear();
    if stream != Stream::Rebase && random.once_in(4) {
        let addend = random.number();
        bytes.push(0x60);
        signed(random, addend as i64, bytes);
    }
    settings(random, stream, bytes);
    for _ in 0..random.below(7) {
        if random.once_in(dones) {
            bytes.push(random.byte() & 15);
            if random.once_in(2) {
                settings(random, stream, bytes);
                place(stream, bytes);
            }
        } else if random.once_in(60) {
            bytes.push(random.byte());
        } else {
            operation(random, stream, bytes);
        }
    }
}
