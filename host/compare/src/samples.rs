//! The cases that the rules spell out (S1 to S4, P1 to P3, DWARF's numbers), with the answers that
//! they give: these need no judge.

use crate::case::Case;
use crate::gen_streams::uleb;
use crate::judge::Bench;
use crate::ours;
use oracle::Stream;

const REPEAT: [u8; 5] = [0x11, 0x22, 0x10, 0x53, 0x00];
const BIND: [u8; 9] = [0x11, 0x40, 0x5f, 0x61, 0x00, 0x51, 0x72, 0x08, 0x90];

/// A stream, the words that are answered up to the first end or refusal, and the names.
type Walk<'a> = (Stream, &'a [u8], &'a [u64], &'a [u8]);

/// S1 to S4.
const WALKS: [Walk; 4] = [
    (
        Stream::Rebase,
        &REPEAT,
        &[0, 2, 16, 1, 0, 2, 24, 1, 0, 2, 32, 1, 256],
        b"",
    ),
    (
        Stream::Plain,
        &BIND,
        &[0, 2, 8, 1, 1, 2, 2, 0, 0, 256],
        b"_a",
    ),
    (Stream::Rebase, &[0x60, 0x00], &[256], b""),
    (Stream::Rebase, &[0x51], &[5], b""),
];

/// Sizes, a stream, and the verdict.
type Flight = ([u64; 3], Vec<u8>, [u64; 3]);

/// P2's stream with a count.
fn backwards(count: u8) -> Vec<u8> {
    let mut bytes = vec![0x11, 0x22, 0x10, 0x80, count, 0xf0];
    bytes.extend([0xff; 8]);
    bytes.push(0x01);
    bytes
}

/// P3's stream with a count: a skip of 2^64 - 7 behind a width of 8 is a step of 1.
fn dense(count: u64) -> Vec<u8> {
    let mut bytes = vec![0x11, 0x22, 0x00, 0x80];
    uleb(count, &mut bytes);
    bytes.push(0xf9);
    bytes.extend([0xff; 8]);
    bytes.push(0x01);
    bytes
}

/// P1 to P3, both halves of each.
fn flights() -> [Flight; 6] {
    let many = (1 << 62) - 7;
    [
        ([0, 0, 40], REPEAT.to_vec(), [0, 4, 0]),
        ([0, 0, 39], REPEAT.to_vec(), [20, 3, 2]),
        ([0, 0, 24], backwards(3), [0, 3, 0]),
        ([0, 0, 24], backwards(4), [20, 3, 3]),
        ([0, 0, 1 << 62], dense(many), [0, 3, 0]),
        ([0, 0, 1 << 62], dense(many + 1), [20, 3, many]),
    ]
}

/// DWARF's examples: unsigned as offsets, signed as addends, of a bind.
const UNSIGNED: [(&[u8], u64); 4] = [
    (&[0x02], 2),
    (&[0x7f], 127),
    (&[0x80, 0x01], 128),
    (&[0xb9, 0x64], 12857),
];
const SIGNED: [(&[u8], i64); 4] = [
    (&[0x7e], -2),
    (&[0xff, 0x00], 127),
    (&[0x80, 0x7f], -128),
    (&[0xff, 0x7e], -129),
];

fn bind_with(addend: &[u8], offset: &[u8]) -> Vec<u8> {
    let mut bytes = vec![0x11, 0x40, 0x5f, 0x61, 0x00, 0x51, 0x60];
    bytes.extend_from_slice(addend);
    bytes.push(0x72);
    bytes.extend_from_slice(offset);
    bytes.push(0x90);
    bytes
}

fn walk(bench: &mut Bench, stream: Stream, bytes: &[u8], words: &[u64], names: &[u8]) {
    let calls = 1 + words.len() / if stream == Stream::Rebase { 4 } else { 9 };
    let case = Case::Stream {
        stream,
        size: 8,
        calls,
        bytes,
    };
    bench.expected.words = words.to_vec();
    bench.expected.names = names.to_vec();
    bench.cases += 1;
    let breach = ours::run(&case, &mut bench.desk, &mut bench.answered);
    bench.answered.words.truncate(words.len());
    bench.settle(breach, || case.text());
}

/// Runs them all.
pub fn all(bench: &mut Bench) {
    for (stream, bytes, words, names) in WALKS {
        walk(bench, stream, bytes, words, names);
    }
    for (bytes, value) in UNSIGNED {
        let words = [0, 2, value, 1, 1, 2, 2, 0, 0, 256];
        walk(bench, Stream::Plain, &bind_with(&[0], bytes), &words, b"_a");
    }
    for (bytes, value) in SIGNED {
        let words = [0, 2, 8, 1, 1, 2, 2, 0, value as u64, 256];
        walk(bench, Stream::Plain, &bind_with(bytes, &[8]), &words, b"_a");
    }
    for (sizes, bytes, verdict) in flights() {
        let case = Case::Preflight {
            stream: Stream::Rebase,
            size: 8,
            sizes: &sizes,
            bytes: &bytes,
        };
        bench.expected.clear();
        bench.expected.words.extend(verdict);
        bench.cases += 1;
        let breach = ours::run(&case, &mut bench.desk, &mut bench.answered);
        bench.settle(breach, || case.text());
    }
}

/// Their streams, to be judged and recorded with the others.
pub fn streams() -> impl Iterator<Item = (Stream, &'static [u8])> {
    WALKS
        .into_iter()
        .map(|(stream, bytes, _, _)| (stream, bytes))
}

/// Their preflights: sizes and streams.
pub fn preflights() -> impl Iterator<Item = ([u64; 3], Vec<u8>)> {
    flights()
        .into_iter()
        .map(|(sizes, bytes, _)| (sizes, bytes))
}
