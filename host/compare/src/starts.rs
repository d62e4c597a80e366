//! Starts, preflights and `name` given slices that are no record, sizes and places of all kinds:
//! what the boundary says of them needs no judge.

use crate::judge::Bench;
use crate::ours::{bind_start, set_word, words, OUT_OF_RANGE};
use crate::random::Random;
use brinetrellis::raw;
use oracle::Stream;

const FILLED: u8 = 0xa5;

/// A slice with a start to write its state into: mostly of its length.
fn slice(random: &mut Random, length: usize) -> Vec<u8> {
    let other = [0, length - 1, length + 1, length + 8];
    vec![
        FILLED;
        if random.once_in(4) {
            random.pick(&other)
        } else {
            length
        }
    ]
}

fn untouched(slice: &[u8]) -> bool {
    slice.iter().all(|byte| *byte == FILLED)
}

/// One case.
pub fn one(random: &mut Random, bench: &mut Bench) {
    bench.cases += 1;
    let (name, right) = match random.below(6) {
        0 => ("rebase_start", rebase(random)),
        1 => ("bind start", bind(random)),
        2 => ("trie_start", trie(random)),
        3 => ("page_start", page(random)),
        4 => ("preflight", preflight(random)),
        _ => ("name", name(random)),
    };
    if !right {
        bench.differ(|| format!("{name} does not answer or write what the boundary says"));
    }
}

/// What a start of a stream walk has to answer.
fn expected(size: u64, slice: &[u8], length: usize) -> u64 {
    if slice.len() != length {
        OUT_OF_RANGE
    } else {
        u64::from(size != 4 && size != 8)
    }
}

fn size(random: &mut Random) -> u64 {
    let any = random.number();
    random.pick(&[4, 8, 8, 4, any, 260, 264])
}

fn rebase(random: &mut Random) -> bool {
    let (size, mut state) = (size(random), slice(random, 80));
    let answer = raw::rebase_start(size, &mut state);
    let mut begun = [0; 80];
    set_word(&mut begun, 1, size);
    answer == expected(size, &state, 80)
        && (answer == 0 && state == begun || answer != 0 && untouched(&state))
}

fn bind(random: &mut Random) -> bool {
    let stream = random.pick(&[Stream::Plain, Stream::Weak, Stream::Lazy]);
    let (size, mut state) = (size(random), slice(random, 144));
    let answer = bind_start(stream, size, &mut state);
    let mut begun = [0; 144];
    let fields: &[(usize, u64)] = match stream {
        Stream::Weak => &[(8, 1), (12, 1), (9, 1), (13, -3i64 as u64)],
        Stream::Lazy => &[(6, 1), (8, 1), (12, 1)],
        _ => &[],
    };
    for (index, word) in fields.iter().chain(&[(1, size)]) {
        set_word(&mut begun, *index, *word);
    }
    answer == expected(size, &state, 144)
        && (answer == 0 && state == begun || answer != 0 && untouched(&state))
}

/// A start of a trie walk always begins, with no node open.
fn trie(random: &mut Random) -> bool {
    let mut state = slice(random, 6416);
    let answer = raw::trie_start(&mut state);
    if state.len() == 6416 {
        answer == 0 && words(&state)[..2] == [0, 0]
    } else {
        answer == OUT_OF_RANGE && untouched(&state)
    }
}

/// A record of a segment, in and out of the bytes, and with fields that are too large.
fn page(random: &mut Random) -> bool {
    let (fixups, base) = (vec![0; random.below(64)], random.next());
    let mut segment = slice(random, 64);
    let (place, count) = (
        random.below(70) as u64,
        random.pick(&[0, 1, 2, 8, 1 << 63, u64::MAX]),
    );
    let typed =
        |random: &mut Random| random.pick(&[0, 2, 3, 6, 2, 3, 6, 65_535, 65_535, 65_536, 1 << 40]);
    let fields = [
        random.next(),
        typed(random),
        typed(random),
        random.next(),
        random.next(),
        typed(random),
        place,
        count,
    ];
    for (chunk, field) in segment.chunks_exact_mut(8).zip(fields) {
        chunk.copy_from_slice(&field.to_le_bytes());
    }
    let mut state = slice(random, 128);
    let answer = raw::page_start(&fixups, &segment, base, &mut state);
    let record = segment.len() == 64
        && state.len() == 128
        && [1, 2, 5].iter().all(|at| fields[*at] < 65_536);
    let lies = u128::from(place) + 2 * u128::from(count) <= fixups.len() as u128;
    if !record || !lies {
        return answer == OUT_OF_RANGE && untouched(&state);
    }
    if !matches!(fields[2], 2 | 3 | 6) {
        return answer == 11 && untouched(&state);
    }
    let kept = state[..64] == segment[..] && state[64..72] == base.to_le_bytes();
    answer == 0 && kept && state[120..] == [0; 8]
}

/// Sizes are whole words and a verdict is two of them, or nothing is written.
fn preflight(random: &mut Random) -> bool {
    let sizes = vec![0; random.pick(&[0, 8, 16, 128, 136, 1, 7, 9, 20])];
    let (size, mut verdict) = (size(random), slice(random, 16));
    let entry = random.pick(&[
        raw::preflight_rebase,
        raw::preflight_plain,
        raw::preflight_weak,
        raw::preflight_lazy,
    ]);
    let answer = entry(&[], size, &sizes, &mut verdict);
    if verdict.len() != 16 || !sizes.len().is_multiple_of(8) {
        return answer == OUT_OF_RANGE && untouched(&verdict);
    }
    let expected = match (size, sizes.len()) {
        (4 | 8, 0..=128) => 0,
        (4 | 8, _) => 21,
        _ => 1,
    };
    answer == expected && verdict == [0; 16]
}

/// A name is told where its place and length lie in the bytes; else it is empty.
fn name(random: &mut Random) -> bool {
    let bytes = vec![1; random.below(20)];
    let near = |random: &mut Random| {
        let any = random.number();
        let small = random.below(22) as u64;
        random.pick(&[small, small, small, any, u64::MAX - small])
    };
    let (place, length, mut part) = (near(random), near(random), slice(random, 16));
    let answer = raw::name(&bytes, place, length, &mut part);
    if part.len() != 16 {
        return answer == OUT_OF_RANGE && untouched(&part);
    }
    let lies = u128::from(place) + u128::from(length) <= bytes.len() as u128;
    let told = if lies { [place, length] } else { [0, 0] };
    answer == 0 && words(&part)[..2] == told
}
