//! States of the stream walks that the crate can be brought to: operations before the stream set
//! what the state has, and what the crate says from there on judges what the reader says from the
//! state on.

use crate::case::bounds;
use crate::gen_streams::{self, sleb, uleb};
use crate::hex;
use crate::judge::Bench;
use crate::ours::{self, set_word};
use crate::random::Random;
use oracle::Stream;

const CALLS: usize = 24;

/// A state in the terms that operations set.
struct Set {
    size: u64,
    segment: Option<u8>,
    kind: Option<u8>,
    offset: u64,
    remaining: u64,
    advance: u64,
}

impl Set {
    fn random(random: &mut Random) -> Set {
        let often = |random: &mut Random| (!random.once_in(8)).then(|| random.byte() & 15);
        Set {
            size: random.pick(&[4, 8]),
            segment: often(random),
            kind: often(random),
            offset: random.number(),
            remaining: random.pick(&[0, 0, 1, 2, 3, 1 << 40]),
            advance: random.number(),
        }
    }

    /// The words of a state that both walks have, at the same places.
    fn common(&self, at: usize) -> [(usize, u64); 5] {
        [
            (0, at as u64),
            (1, self.size),
            (2, self.remaining),
            (3, self.advance),
            (4, self.offset),
        ]
    }

    /// Whether segment and type are set, and what they are, from the places of these words.
    fn settled(&self, flags: [usize; 2], values: [usize; 2]) -> [(usize, u64); 4] {
        [
            (flags[0], u64::from(self.segment.is_some())),
            (flags[1], u64::from(self.kind.is_some())),
            (values[0], self.segment.unwrap_or(0).into()),
            (values[1], self.kind.unwrap_or(0).into()),
        ]
    }

    /// The operations that set segment, type and offset, with the opcodes of a stream.
    fn settings(&self, kind: u8, segment: u8, add: u8, bytes: &mut Vec<u8>) {
        if let Some(value) = self.kind {
            bytes.push(kind << 4 | value);
        }
        bytes.push(self.segment.map_or(add << 4, |index| segment << 4 | index));
        uleb(self.offset, bytes);
    }

    /// The operation that leaves so many places to yield. It comes last: a place may be refused.
    fn repeat(&self, opcode: u8, bytes: &mut Vec<u8>) {
        if self.remaining != 0 {
            bytes.push(opcode << 4);
            uleb(self.remaining, bytes);
            uleb(self.advance.wrapping_sub(self.size), bytes);
        }
    }
}

/// One case of a rebase state.
pub fn rebase(random: &mut Random, bytes: &mut Vec<u8>, bench: &mut Bench) {
    gen_streams::stream(random, Stream::Rebase, 8, bytes);
    let (set, at) = (Set::random(random), random.below(bytes.len() + 1));
    let mut whole = Vec::new();
    set.settings(1, 2, 3, &mut whole);
    set.repeat(8, &mut whole);
    whole.extend_from_slice(&bytes[at..]);
    let mut state = [0; 80];
    for (index, word) in set
        .common(at)
        .into_iter()
        .chain(set.settled([6, 7], [8, 9]))
    {
        set_word(&mut state, index, word);
    }
    bench.cases += 1;
    oracle::stream(
        Stream::Rebase,
        &whole,
        set.size as u8,
        bounds(CALLS),
        &mut bench.expected,
    );
    bench.answered.clear();
    let given = state;
    let breach = ours::rebase_from(&mut state, CALLS, bytes, &mut bench.answered);
    bench.settle(breach, || {
        format!(
            "rebase state {} {}",
            hex::digits(&given),
            hex::digits(bytes)
        )
    });
}

/// What a bind state has besides.
struct Symbol {
    library: Option<i32>,
    flags: u8,
    addend: i64,
    /// Where the name lies in the stream.
    name: Option<(usize, usize)>,
}

impl Symbol {
    fn random(random: &mut Random, bytes: &[u8]) -> Symbol {
        let library = random.pick(&[0, 1, -1, -15, 200, i32::MAX]);
        let place = random.below(bytes.len() + 1);
        let most = bytes[place..]
            .iter()
            .position(|byte| *byte == 0)
            .unwrap_or(bytes.len() - place);
        let name = (place, random.below(most + 1));
        Symbol {
            library: (!random.once_in(8)).then_some(library),
            flags: random.byte() & 15,
            addend: random.number() as i64,
            name: (!random.once_in(8)).then_some(name),
        }
    }

    fn settings(&self, stream: &[u8], bytes: &mut Vec<u8>) {
        match self.library {
            Some(special @ ..0) => bytes.push(0x30 | special as u8 & 15),
            Some(ordinal) => {
                bytes.push(0x20);
                uleb(ordinal as u64, bytes);
            }
            None => (),
        }
        if let Some((place, length)) = self.name {
            bytes.push(0x40 | self.flags);
            bytes.extend_from_slice(&stream[place..place + length]);
            bytes.push(0);
        }
        bytes.push(0x60);
        sleb(self.addend, bytes);
    }

    fn fields(&self) -> [(usize, u64); 7] {
        let (place, length) = self.name.unwrap_or((0, 0));
        [
            (9, u64::from(self.library.is_some())),
            (10, u64::from(self.name.is_some())),
            (13, self.library.unwrap_or(0) as i64 as u64),
            (14, place as u64),
            (15, length as u64),
            (
                16,
                if self.name.is_some() {
                    self.flags.into()
                } else {
                    0
                },
            ),
            (17, self.addend as u64),
        ]
    }
}

/// One case of a bind state, plain or lazy. (A weak walk is a plain one that has begun otherwise.)
pub fn bind(random: &mut Random, bytes: &mut Vec<u8>, bench: &mut Bench) {
    let stream = random.pick(&[Stream::Plain, Stream::Lazy]);
    gen_streams::stream(random, stream, 8, bytes);
    let (mut set, at) = (Set::random(random), random.below(bytes.len() + 1));
    if stream == Stream::Lazy {
        set.kind = set.kind.or(Some(1));
    }
    let symbol = Symbol::random(random, bytes);
    let mut whole = Vec::new();
    set.settings(5, 7, 8, &mut whole);
    symbol.settings(bytes, &mut whole);
    set.repeat(12, &mut whole);
    let prefix = whole.len();
    whole.extend_from_slice(&bytes[at..]);
    let mut state = [0; 144];
    let settled = set
        .settled([7, 8], [11, 12])
        .into_iter()
        .chain(symbol.fields());
    for (index, word) in set.common(at).into_iter().chain(settled) {
        set_word(&mut state, index, word);
    }
    set_word(&mut state, 6, u64::from(stream == Stream::Lazy));
    bench.cases += 1;
    oracle::stream(
        stream,
        &whole,
        set.size as u8,
        bounds(CALLS),
        &mut bench.expected,
    );
    let kept = symbol.name.map_or(0, |(place, _)| place as u64);
    move_names(&mut bench.expected.words, prefix as u64, at as u64, kept);
    bench.answered.clear();
    let given = state;
    let breach = ours::bind_from(&mut state, CALLS, bytes, &mut bench.answered);
    bench.settle(breach, || {
        format!("bind state {} {}", hex::digits(&given), hex::digits(bytes))
    });
}

/// The places of names in the crate's bytes become those in the reader's: a name before the stream
/// is the one that the state keeps.
fn move_names(words: &mut [u64], prefix: u64, at: u64, kept: u64) {
    let mut index = 0;
    while index < words.len() {
        if words[index] != 0 {
            index += 1;
            continue;
        }
        let place = &mut words[index + 5];
        *place = if *place < prefix {
            kept
        } else {
            *place - prefix + at
        };
        index += 9;
    }
}
