//! All short inputs.

use crate::case::Case;
use crate::judge::Bench;
use oracle::Stream;
use std::ops::Range;

/// All strings over some bytes, from a length up to a length, and what they are read as.
pub struct Strings {
    reader: Reader,
    alphabet: &'static [u8],
    lengths: [u32; 2],
}

/// What the strings are read as.
#[derive(Clone, Copy)]
pub enum Reader {
    Stream(Stream),
    Trie,
}

const ALL: [u8; 256] = {
    let mut all = [0; 256];
    let mut byte = 0;
    while byte < 256 {
        all[byte] = byte as u8;
        byte += 1;
    }
    all
};

/// The bytes that can make a place or an export together.
const REBASES: [u8; 7] = [0x00, 0x02, 0x11, 0x21, 0x51, 0x72, 0x80];
const PLAIN: [u8; 6] = [0x00, 0x11, 0x40, 0x51, 0x70, 0x90];
const WEAK: [u8; 5] = [0x00, 0x40, 0x70, 0x90, 0xc2];
const LAZY: [u8; 5] = [0x00, 0x11, 0x40, 0x70, 0x90];
const NODES: [u8; 6] = [0x00, 0x01, 0x02, 0x03, 0x08, 0x61];

const fn stream(stream: Stream, alphabet: &'static [u8], lengths: [u32; 2]) -> Strings {
    Strings {
        reader: Reader::Stream(stream),
        alphabet,
        lengths,
    }
}

const fn trie(alphabet: &'static [u8], lengths: [u32; 2]) -> Strings {
    Strings {
        reader: Reader::Trie,
        alphabet,
        lengths,
    }
}

/// For each reader all strings of up to two bytes, and longer ones over few bytes; behind these, all
/// of three bytes, and still longer ones.
pub const RUNS: [Strings; 20] = [
    stream(Stream::Rebase, &ALL, [0, 2]),
    stream(Stream::Plain, &ALL, [0, 2]),
    stream(Stream::Weak, &ALL, [0, 2]),
    stream(Stream::Lazy, &ALL, [0, 2]),
    trie(&ALL, [0, 2]),
    stream(Stream::Rebase, &REBASES, [3, 5]),
    stream(Stream::Plain, &PLAIN, [3, 6]),
    stream(Stream::Weak, &WEAK, [3, 6]),
    stream(Stream::Lazy, &LAZY, [3, 6]),
    trie(&NODES, [3, 5]),
    stream(Stream::Rebase, &ALL, [3, 3]),
    stream(Stream::Plain, &ALL, [3, 3]),
    stream(Stream::Weak, &ALL, [3, 3]),
    stream(Stream::Lazy, &ALL, [3, 3]),
    trie(&ALL, [3, 3]),
    stream(Stream::Rebase, &REBASES, [6, 8]),
    stream(Stream::Plain, &PLAIN, [7, 9]),
    stream(Stream::Weak, &WEAK, [7, 10]),
    stream(Stream::Lazy, &LAZY, [7, 10]),
    trie(&NODES, [6, 8]),
];

/// The runs in two groups: the second is for those who have the time.
pub const GROUPS: [Range<usize>; 2] = [0..10, 10..20];

impl Strings {
    pub fn count(&self) -> u64 {
        let [shortest, longest] = self.lengths;
        (shortest..=longest)
            .map(|length| (self.alphabet.len() as u64).pow(length))
            .sum()
    }

    /// The string of an index: the shorter ones first.
    fn string(&self, mut index: u64, bytes: &mut Vec<u8>) {
        let base = self.alphabet.len() as u64;
        let mut length = self.lengths[0];
        while index >= base.pow(length) {
            index -= base.pow(length);
            length += 1;
        }
        bytes.clear();
        for _ in 0..length {
            bytes.push(self.alphabet[(index % base) as usize]);
            index /= base;
        }
    }
}

/// Judges one string of a run.
pub fn one(bench: &mut Bench, run: usize, index: u64, bytes: &mut Vec<u8>) {
    RUNS[run].string(index, bytes);
    bench.judge(match RUNS[run].reader {
        Reader::Stream(stream) => Case::Stream {
            stream,
            size: 8,
            calls: 12,
            bytes,
        },
        Reader::Trie => Case::Trie {
            limit: u64::MAX,
            room: 16,
            bytes,
        },
    });
}
