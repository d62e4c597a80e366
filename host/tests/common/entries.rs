//! The entry points, each on buffers that it takes: the samples, lent as bytes.

use super::{contents, sample, u64s, S1, S2, SHARED};
use brinetrellis::{answer, raw};

/// The answer to a state that is none.
pub const OUT_OF_RANGE: u64 = 19;

/// What buffers are full of before a call.
pub const FULL: u8 = 0xaa;

/// An entry point on lent buffers. The first `records` of them must have their lengths.
pub struct Entry {
    pub name: &'static str,
    pub records: usize,
    pub buffers: Vec<Vec<u8>>,
    pub call: fn(&mut [Vec<u8>]) -> u64,
}

pub fn full(length: usize) -> Vec<u8> {
    vec![FULL; length]
}

/// The state that a start writes.
pub fn begun(length: usize, start: impl FnOnce(&mut [u8]) -> u64) -> Vec<u8> {
    let mut state = full(length);
    assert_eq!(start(&mut state), answer::ITEM);
    state
}

/// The segment of the sample of chained fixups.
pub fn segment() -> Vec<u8> {
    u64s(&[1, 0x1000, 2, 0x4000, 0, 1, 66, 1])
}

/// An entry with so many records and no other buffer.
fn entry(name: &'static str, buffers: Vec<Vec<u8>>, call: fn(&mut [Vec<u8>]) -> u64) -> Entry {
    let records = buffers.len();
    Entry {
        name,
        records,
        buffers,
        call,
    }
}

/// Calls with one buffer, and with two.
macro_rules! on {
    (|$a:ident| $call:expr) => {
        |buffers| match buffers {
            [$a] => $call,
            _ => unreachable!("one buffer"),
        }
    };
    (|$a:ident, $b:ident| $call:expr) => {
        |buffers| match buffers {
            [$a, $b] => $call,
            _ => unreachable!("two buffers"),
        }
    };
}

fn starts() -> Vec<Entry> {
    let state = |length| vec![full(length)];
    vec![
        entry("rebase_start", state(80), on!(|s| raw::rebase_start(8, s))),
        entry("bind_plain", state(144), on!(|s| raw::bind_plain(8, s))),
        entry("bind_weak", state(144), on!(|s| raw::bind_weak(8, s))),
        entry("bind_lazy", state(144), on!(|s| raw::bind_lazy(8, s))),
        entry("trie_start", state(6416), on!(|s| raw::trie_start(s))),
        entry(
            "segment_start",
            state(24),
            on!(|s| raw::segment_start(&sample(), s)),
        ),
        entry(
            "page_start",
            vec![segment(), full(128)],
            on!(|g, s| raw::page_start(&sample(), g, 0, s)),
        ),
        entry(
            "import_start",
            state(40),
            on!(|s| raw::import_start(&sample(), s)),
        ),
    ]
}

pub fn steps() -> Vec<Entry> {
    let rebase = begun(80, |s| raw::rebase_start(8, s));
    let bind = begun(144, |s| raw::bind_plain(8, s));
    let segments = begun(24, |s| raw::segment_start(&sample(), s));
    let pages = begun(128, |s| raw::page_start(&sample(), &segment(), 0, s));
    let imports = begun(40, |s| raw::import_start(&sample(), s));
    vec![
        entry(
            "rebase_step",
            vec![rebase, full(24)],
            on!(|s, i| raw::rebase_step(S1, s, i)),
        ),
        entry(
            "bind_step",
            vec![bind, full(64)],
            on!(|s, i| raw::bind_step(S2, s, i)),
        ),
        entry(
            "segment_step",
            vec![segments, full(64)],
            on!(|s, i| raw::segment_step(&sample(), s, i)),
        ),
        entry(
            "page_step",
            vec![pages, full(40)],
            on!(|s, i| raw::page_step(&sample(), &contents(), s, i)),
        ),
        entry(
            "import_step",
            vec![imports, full(40)],
            on!(|s, i| raw::import_step(&sample(), s, i)),
        ),
        trie_step(),
    ]
}

/// Of the trie's buffers the last, for the name, may have any length.
pub fn trie_step() -> Entry {
    Entry {
        name: "trie_step",
        records: 2,
        buffers: vec![begun(6416, raw::trie_start), full(72), full(2)],
        call: |buffers| match buffers {
            [state, item, name] => raw::trie_step(SHARED, state, name, 9, item),
            _ => unreachable!("three buffers"),
        },
    }
}

fn others() -> Vec<Entry> {
    let flight = || vec![u64s(&[0, 0, 40]), full(16)];
    vec![
        entry(
            "preflight_rebase",
            flight(),
            on!(|z, v| raw::preflight_rebase(S1, 8, z, v)),
        ),
        entry(
            "preflight_plain",
            flight(),
            on!(|z, v| raw::preflight_plain(S2, 8, z, v)),
        ),
        entry(
            "preflight_weak",
            flight(),
            on!(|z, v| raw::preflight_weak(S2, 8, z, v)),
        ),
        entry(
            "preflight_lazy",
            flight(),
            on!(|z, v| raw::preflight_lazy(S2, 8, z, v)),
        ),
        entry("name", vec![full(16)], on!(|p| raw::name(S2, 2, 2, p))),
    ]
}

pub fn entries() -> Vec<Entry> {
    starts()
        .into_iter()
        .chain(steps())
        .chain(others())
        .collect()
}

impl Entry {
    /// What is answered to other buffers, and what they hold then.
    pub fn on(&self, buffers: &[Vec<u8>]) -> (u64, Vec<Vec<u8>>) {
        let mut buffers = buffers.to_vec();
        let answer = (self.call)(&mut buffers);
        (answer, buffers)
    }

    /// The answer is 19, and nothing at all is written.
    pub fn keeps_off(&self, buffers: &[Vec<u8>], what: &str) {
        let (answer, left) = self.on(buffers);
        assert_eq!(answer, OUT_OF_RANGE, "{}: {what}", self.name);
        assert!(left == buffers, "{}: {what}: written", self.name);
    }
}
