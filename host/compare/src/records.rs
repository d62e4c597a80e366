//! The states of the six steps: their fields, which values each has, and when one is out of range.

use crate::ours::{set_word, Mark};
use crate::random::Random;
use crate::states::Lent;
use brinetrellis::raw;

/// What a word of a state is.
#[derive(Clone, Copy, PartialEq, Eq)]
pub enum Kind {
    Word,
    Bool,
    U8,
    U16,
    I32,
}
use Kind::{Bool, Word, I32, U16, U8};

/// A step and its state.
pub struct Entry {
    pub name: &'static str,
    pub state: usize,
    pub item: usize,
    pub mark: Mark,
    pub refusals: &'static [u64],
    pub kinds: &'static [Kind],
    pub step: fn(&Lent, &mut [u8], &mut [u8], &mut [u8]) -> u64,
    pub out_of_range: fn(&Lent, &Record) -> bool,
    /// Whether nothing is left to read, so that a walk that has not ended says End and keeps its state.
    pub idle: fn(&Lent, &Record) -> bool,
    /// How much of an item is told without an item.
    pub told: usize,
}

/// A state, in words as far as it has them.
#[derive(Debug)]
pub struct Record {
    pub bytes: Vec<u8>,
}

pub const ENTRIES: [Entry; 6] = [
    Entry {
        name: "rebase_step",
        state: 80,
        item: 24,
        mark: Mark::Word(5),
        refusals: &[2, 3, 5, 6],
        kinds: &[Word, U8, Word, Word, Word, Bool, Bool, Bool, U8, U8],
        step: |lent, state, _, item| raw::rebase_step(&lent.bytes, state, item),
        out_of_range: stream_out,
        idle: |lent, state| state.word(2) == 0 && state.word(0) == lent.bytes.len() as u64,
        told: 0,
    },
    Entry {
        name: "bind_step",
        state: 144,
        item: 64,
        mark: Mark::Word(5),
        refusals: &[2, 3, 4, 5, 6, 7, 8],
        kinds: &[
            Word, U8, Word, Word, Word, Bool, Bool, Bool, Bool, Bool, Bool, U8, U8, I32, Word,
            Word, U8, Word,
        ],
        step: |lent, state, _, item| raw::bind_step(&lent.bytes, state, item),
        out_of_range: stream_out,
        idle: |lent, state| state.word(2) == 0 && state.word(0) == lent.bytes.len() as u64,
        told: 0,
    },
    Entry {
        name: "trie_step",
        state: 6416,
        item: 72,
        mark: Mark::Word(1),
        refusals: &[15, 16, 17, 18],
        kinds: &[Word, Bool],
        step: |lent, state, name, item| raw::trie_step(&lent.bytes, state, name, lent.limit, item),
        out_of_range: trie_out,
        idle: |_, _| false,
        told: 8,
    },
    Entry {
        name: "segment_step",
        state: 24,
        item: 64,
        mark: Mark::Nothing,
        refusals: &[9],
        kinds: &[Word, Word, Word],
        step: |lent, state, _, item| raw::segment_step(&lent.bytes, state, item),
        out_of_range: segments_out,
        idle: |_, state| state.word(2) >= state.word(1),
        told: 0,
    },
    Entry {
        name: "page_step",
        state: 128,
        item: 40,
        mark: Mark::Word(15),
        refusals: &[12, 13],
        kinds: &[
            Word, U16, U16, Word, Word, U16, Word, Word, Word, Bool, Bool, Word, Word, Word, Word,
            Bool,
        ],
        step: |lent, state, _, item| raw::page_step(&lent.bytes, &lent.contents, state, item),
        out_of_range: pages_out,
        idle: |_, state| state.word(9) + state.word(10) == 0 && state.word(11) >= state.word(5),
        told: 0,
    },
    Entry {
        name: "import_step",
        state: 40,
        item: 40,
        mark: Mark::Word(4),
        refusals: &[11, 14],
        kinds: &[Word, Word, Word, Word, Bool],
        step: |lent, state, _, item| raw::import_step(&lent.bytes, state, item),
        out_of_range: imports_out,
        idle: |_, state| state.word(2) == 0,
        told: 0,
    },
];

/// The words of a trie walk's open nodes, and the bytes of their children left.
const PLACES: usize = 2;
const OFFSETS: usize = PLACES + 256;
const LENGTHS: usize = OFFSETS + 256;
const LEFT: usize = 8 * (LENGTHS + 256);

fn beyond(lent: &Lent, place: u64, more: u128) -> bool {
    u128::from(place) + more > lent.bytes.len() as u128
}

fn stream_out(lent: &Lent, state: &Record) -> bool {
    beyond(lent, state.word(0), 0) || !matches!(state.word(1), 4 | 8)
}

fn trie_out(lent: &Lent, state: &Record) -> bool {
    let open = state.word(0);
    let kept = |index| state.word(LENGTHS + index) > lent.name.len() as u64;
    open > 256
        || (0..open as usize)
            .any(|index| beyond(lent, state.word(PLACES + index), 0) || kept(index))
}

fn segments_out(lent: &Lent, state: &Record) -> bool {
    beyond(lent, state.word(0), 4 + 4 * u128::from(state.word(1)))
}

fn pages_out(lent: &Lent, state: &Record) -> bool {
    let starts = beyond(lent, state.word(6), 2 * u128::from(state.word(7)));
    starts || !matches!(state.word(2), 2 | 3 | 6) || state.word(13) > 65_535 * 65_535
}

fn imports_out(lent: &Lent, state: &Record) -> bool {
    beyond(lent, state.word(0), 0) || beyond(lent, state.word(1), 0)
}

impl Record {
    pub fn word(&self, index: usize) -> u64 {
        let bytes = &self.bytes[8 * index..8 * index + 8];
        u64::from_le_bytes(bytes.try_into().expect("eight bytes"))
    }

    pub fn ended(&self, entry: &Entry) -> bool {
        matches!(entry.mark, Mark::Word(index) if self.word(index) == 1)
    }

    /// A state whose fields have values of their types, mostly near what a walk would hand out.
    pub fn random(random: &mut Random, entry: &Entry, lent: &Lent) -> Record {
        let mut record = Record {
            bytes: vec![0; entry.state],
        };
        for (index, kind) in entry.kinds.iter().enumerate() {
            let word = match kind {
                Bool => random.below(4).min(1) as u64,
                U8 => random.pick(&[4, 8, 8, 8, 1, 15, 255]),
                U16 => random.pick(&[2, 3, 6, 6, 2, 3, 8, 16, 65_535]),
                I32 => random.pick(&[0, 1, -1i64 as u64, i32::MIN as u64, i32::MAX as u64]),
                Word => near(random, lent.bytes.len()),
            };
            set_word(&mut record.bytes, index, word);
        }
        if let Mark::Word(index) = entry.mark {
            set_word(&mut record.bytes, index, u64::from(random.once_in(6)));
        }
        if entry.state == 6416 {
            record.open_nodes(random, lent);
        }
        record
    }

    /// The open nodes of a trie walk: few, or as many as there may be.
    fn open_nodes(&mut self, random: &mut Random, lent: &Lent) {
        let depth = random.pick(&[0, 1, 1, 2, 3, 4, 255, 256, 257]);
        set_word(&mut self.bytes, 0, depth);
        for index in 0..depth.min(256) as usize {
            let strange = random.once_in(40 * depth as usize);
            let places = lent.bytes.len() + 1 + usize::from(strange);
            set_word(&mut self.bytes, PLACES + index, random.below(places) as u64);
            set_word(
                &mut self.bytes,
                OFFSETS + index,
                near(random, lent.bytes.len()),
            );
            let lengths = lent.name.len() + 1 + usize::from(strange);
            set_word(
                &mut self.bytes,
                LENGTHS + index,
                random.below(lengths) as u64,
            );
            self.bytes[LEFT + index] = random.byte() % 4;
        }
    }

    /// Gives a field a value that its type does not have.
    pub fn break_type(&mut self, random: &mut Random, entry: &Entry) {
        let typed = |kind: &Kind| *kind != Word;
        if !entry.kinds.iter().any(typed) {
            // All words of this state have all values: too short instead.
            self.bytes.pop();
            return;
        }
        let index = loop {
            let index = random.below(entry.kinds.len());
            if typed(&entry.kinds[index]) {
                break index;
            }
        };
        let (least, above) = match entry.kinds[index] {
            Bool => (2, u64::MAX),
            U8 => (256, u64::MAX),
            U16 => (65_536, u64::MAX),
            _ => (1 << 31, i32::MIN as i64 as u64 - 1),
        };
        let high = least + random.next() % (above - least);
        set_word(&mut self.bytes, index, random.pick(&[least, above, high]));
    }
}

/// A number around a length, mostly below it, seldom any.
fn near(random: &mut Random, length: usize) -> u64 {
    match random.below(24) {
        0 => random.next(),
        1 => u64::MAX - random.below(4) as u64,
        2 => length as u64 + 1,
        3 => length as u64,
        4..=9 => random.below(3) as u64,
        _ => random.below(length + 1) as u64,
    }
}
