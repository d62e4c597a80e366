//! The reader's side: its entry points called on, with what holds of every answer at the boundary
//! checked on the way.

use crate::case::{bounds, Case};
use crate::ours_trie::Desk;
use brinetrellis::raw;
use oracle::{Answers, Stream, END, ITEM};

/// More nodes are left: an answer of the exports walk only.
pub const MORE: u64 = 257;
/// A state that is out of range.
pub const OUT_OF_RANGE: u64 = 19;
/// The most words that an item has.
const WORDS: usize = 9;

/// What an answer broke of the boundary's rules, if anything.
pub type Breach = Option<&'static str>;

/// The words of a record.
pub fn words(record: &[u8]) -> [u64; WORDS] {
    let mut words = [0; WORDS];
    for (word, bytes) in words.iter_mut().zip(record.chunks_exact(8)) {
        *word = u64::from_le_bytes(bytes.try_into().expect("eight bytes"));
    }
    words
}

pub fn set_word(record: &mut [u8], index: usize, word: u64) {
    record[8 * index..8 * index + 8].copy_from_slice(&word.to_le_bytes());
}

/// The part of some bytes that the reader's `name` tells.
fn part(bytes: &[u8], place: u64, length: u64) -> &[u8] {
    let mut told = [0xa5; 16];
    let answer = raw::name(bytes, place, length, &mut told);
    let told = words(&told);
    let rest = bytes.get(told[0] as usize..).filter(|_| answer == 0);
    rest.and_then(|rest| rest.get(..told[1] as usize))
        .unwrap_or(b"(no such name)")
}

/// Runs a case and notes the answers as the judge notes its own.
pub fn run(case: &Case<'_>, desk: &mut Desk, answers: &mut Answers) -> Breach {
    answers.clear();
    match *case {
        Case::Stream {
            stream: Stream::Rebase,
            size,
            calls,
            bytes,
        } => rebase(size, calls, bytes, answers),
        Case::Stream {
            stream,
            size,
            calls,
            bytes,
        } => bind(stream, size, calls, bytes, answers),
        Case::Trie { limit, room, bytes } => desk.walk(bytes, room, || limit, answers),
        Case::Segments { calls, fixups } => segments(calls, fixups, answers),
        Case::Pages {
            nth,
            base,
            calls,
            fixups,
            contents,
        } => pages(nth, base, calls, fixups, contents, answers),
        Case::Imports { calls, fixups } => imports(calls, fixups, answers),
        Case::Preflight {
            stream,
            size,
            sizes,
            bytes,
        } => preflight(stream, size, sizes, bytes, answers),
    }
}

/// What marks a state as ended: a word of it, or, in the walk over segments, nothing.
#[derive(Clone, Copy)]
pub enum Mark {
    Word(usize),
    Nothing,
}

/// Whether a refusal hands back the state as it was given, marked as ended.
pub fn handed_back(before: &[u8], state: &[u8], mark: Mark) -> bool {
    match mark {
        Mark::Word(index) => {
            let (at, behind) = (8 * index, 8 * index + 8);
            state[..at] == before[..at]
                && state[at..behind] == 1u64.to_le_bytes()
                && state[behind..] == before[behind..]
        }
        Mark::Nothing => state[..16] == before[..16] && words(state)[2] > words(before)[2],
    }
}

/// Calls a step on, as far as the judge does, and notes its answers.
fn walk<const STATE: usize, const LENGTH: usize>(
    state: &mut [u8; STATE],
    mark: Mark,
    calls: usize,
    answers: &mut Answers,
    mut step: impl FnMut(&mut [u8], &mut [u8]) -> u64,
    mut name: impl FnMut(&[u64], &mut Answers),
) -> Breach {
    let (mut item, mut ends, mut refused) = ([0; LENGTH], 0, false);
    for _ in 0..calls {
        let before = *state;
        item.fill(0xa5);
        let answer = step(state, &mut item);
        if answer == ITEM {
            let words = &words(&item)[..LENGTH / 8];
            answers.item(words);
            name(words, answers);
            continue;
        }
        answers.number(answer);
        if item != [0; LENGTH] {
            return Some("an item is written where none is answered");
        }
        if answer != END && !handed_back(&before, state, mark) {
            return Some("a refusal hands back another state than the one given, marked");
        }
        if refused && matches!(mark, Mark::Word(_)) && *state != before {
            return Some("an end behind a refusal changes the state");
        }
        refused |= answer != END;
        ends += usize::from(answer == END);
        if ends == bounds(calls).ends {
            break;
        }
    }
    None
}

fn rebase(size: u8, calls: usize, bytes: &[u8], answers: &mut Answers) -> Breach {
    let mut state = [0; 80];
    let start = raw::rebase_start(size.into(), &mut state);
    if start != 0 {
        answers.number(start);
        return None;
    }
    let step = |state: &mut [u8], item: &mut [u8]| raw::rebase_step(bytes, state, item);
    walk::<80, 24>(&mut state, Mark::Word(5), calls, answers, step, |_, _| ())
}

/// The start of a bind walk.
pub fn bind_start(stream: Stream, size: u64, state: &mut [u8]) -> u64 {
    match stream {
        Stream::Weak => raw::bind_weak(size, state),
        Stream::Lazy => raw::bind_lazy(size, state),
        _ => raw::bind_plain(size, state),
    }
}

fn bind(stream: Stream, size: u8, calls: usize, bytes: &[u8], answers: &mut Answers) -> Breach {
    let mut state = [0; 144];
    let start = bind_start(stream, size.into(), &mut state);
    if start != 0 {
        answers.number(start);
        return None;
    }
    bind_from(&mut state, calls, bytes, answers)
}

/// The bind walk from a state on.
pub fn bind_from(
    state: &mut [u8; 144],
    calls: usize,
    bytes: &[u8],
    answers: &mut Answers,
) -> Breach {
    let step = |state: &mut [u8], item: &mut [u8]| raw::bind_step(bytes, state, item);
    let name = |words: &[u64], answers: &mut Answers| answers.name(part(bytes, words[4], words[5]));
    walk::<144, 64>(state, Mark::Word(5), calls, answers, step, name)
}

/// The rebase walk from a state on.
pub fn rebase_from(
    state: &mut [u8; 80],
    calls: usize,
    bytes: &[u8],
    answers: &mut Answers,
) -> Breach {
    let step = |state: &mut [u8], item: &mut [u8]| raw::rebase_step(bytes, state, item);
    walk::<80, 24>(state, Mark::Word(5), calls, answers, step, |_, _| ())
}

/// Notes the answer of a start; whether it has begun, and what it broke.
fn begun(start: u64, state: &[u8], answers: &mut Answers) -> (bool, Breach) {
    answers.number(start);
    let written = start != 0 && state.iter().any(|byte| *byte != 0xa5);
    (
        start == 0,
        written.then_some("a refused start writes a state"),
    )
}

fn segments(calls: usize, fixups: &[u8], answers: &mut Answers) -> Breach {
    let mut state = [0xa5; 24];
    let (on, breach) = begun(raw::segment_start(fixups, &mut state), &state, answers);
    if !on {
        return breach;
    }
    let step = |state: &mut [u8], item: &mut [u8]| raw::segment_step(fixups, state, item);
    walk::<24, 64>(&mut state, Mark::Nothing, calls, answers, step, |_, _| ())
}

/// The record of the segment that the walk over segments yields as its `nth`.
fn segment(nth: usize, fixups: &[u8]) -> Option<[u8; 64]> {
    let (mut state, mut item, mut left) = ([0; 24], [0; 64], nth);
    if raw::segment_start(fixups, &mut state) != 0 {
        return None;
    }
    // There is a word of the bytes for each segment.
    for _ in 0..fixups.len() {
        match raw::segment_step(fixups, &mut state, &mut item) {
            ITEM if left == 0 => return Some(item),
            ITEM => left -= 1,
            END => break,
            _ => (),
        }
    }
    None
}

fn pages(
    nth: usize,
    base: u64,
    calls: usize,
    fixups: &[u8],
    contents: &[u8],
    answers: &mut Answers,
) -> Breach {
    let Some(segment) = segment(nth, fixups) else {
        return Some("the walk over segments does not yield this one");
    };
    let mut state = [0xa5; 128];
    let start = raw::page_start(fixups, &segment, base, &mut state);
    let (on, breach) = begun(start, &state, answers);
    if !on {
        return breach;
    }
    let step = |state: &mut [u8], item: &mut [u8]| raw::page_step(fixups, contents, state, item);
    walk::<128, 40>(&mut state, Mark::Word(15), calls, answers, step, |_, _| ())
}

fn imports(calls: usize, fixups: &[u8], answers: &mut Answers) -> Breach {
    let mut state = [0xa5; 40];
    let (on, breach) = begun(raw::import_start(fixups, &mut state), &state, answers);
    if !on {
        return breach;
    }
    let step = |state: &mut [u8], item: &mut [u8]| raw::import_step(fixups, state, item);
    let name =
        |words: &[u64], answers: &mut Answers| answers.name(part(fixups, words[3], words[4]));
    walk::<40, 40>(&mut state, Mark::Word(4), calls, answers, step, name)
}

fn preflight(
    stream: Stream,
    size: u64,
    sizes: &[u64],
    bytes: &[u8],
    answers: &mut Answers,
) -> Breach {
    let mut packed = [0; 8 * 20];
    for (place, word) in packed.chunks_exact_mut(8).zip(sizes) {
        place.copy_from_slice(&word.to_le_bytes());
    }
    let (packed, mut verdict) = (&packed[..8 * sizes.len()], [0xa5; 16]);
    let answer = match stream {
        Stream::Rebase => raw::preflight_rebase(bytes, size, packed, &mut verdict),
        Stream::Plain => raw::preflight_plain(bytes, size, packed, &mut verdict),
        Stream::Weak => raw::preflight_weak(bytes, size, packed, &mut verdict),
        Stream::Lazy => raw::preflight_lazy(bytes, size, packed, &mut verdict),
    };
    answers.number(answer);
    answers.words.extend_from_slice(&words(&verdict)[..2]);
    None
}
