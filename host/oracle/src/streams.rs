//! The crate's rebase and bind walks.

use crate::endian::{LittleEndian, U32};
use crate::macho::DyldInfoCommand;
use crate::read::macho::{Bind, BindIterator, BindOperationIterator};
use crate::read::macho::{Rebase, RebaseIterator, RebaseOperationIterator};
use crate::texts::number;
use crate::{Answers, Bounds, Stream, END};

/// A load command whose every part is the whole of the lent bytes.
pub fn command(length: usize) -> DyldInfoCommand<LittleEndian> {
    let word = |value: usize| U32::new(LittleEndian, value as u32);
    DyldInfoCommand {
        cmd: word(0),
        cmdsize: word(0),
        rebase_off: word(0),
        rebase_size: word(length),
        bind_off: word(0),
        bind_size: word(length),
        weak_bind_off: word(0),
        weak_bind_size: word(length),
        lazy_bind_off: word(0),
        lazy_bind_size: word(length),
        export_off: word(0),
        export_size: word(length),
    }
}

pub(crate) fn rebases(bytes: &[u8], pointer_size: u8) -> RebaseIterator<'_> {
    let all = command(bytes.len());
    all.rebases(LittleEndian, bytes, pointer_size)
        .expect("the part is there")
}

pub(crate) fn binds(stream: Stream, bytes: &[u8], pointer_size: u8) -> BindIterator<'_> {
    let all = command(bytes.len());
    let walk = match stream {
        Stream::Weak => all.weak_binds(LittleEndian, bytes, pointer_size),
        Stream::Lazy => all.lazy_binds(LittleEndian, bytes, pointer_size),
        _ => all.binds(LittleEndian, bytes, pointer_size),
    };
    walk.expect("the part is there")
}

/// The crate's own parsers of operations.
pub(crate) fn rebase_operations(bytes: &[u8]) -> RebaseOperationIterator<'_> {
    let all = command(bytes.len());
    all.rebase_operations(LittleEndian, bytes)
        .expect("the part is there")
}

pub(crate) fn bind_operations(bytes: &[u8]) -> BindOperationIterator<'_> {
    let all = command(bytes.len());
    all.bind_operations(LittleEndian, bytes)
        .expect("the part is there")
}

/// The words of a rebase: segment, offset, type.
fn rebase_words(rebase: Rebase) -> [u64; 3] {
    [
        rebase.segment_index.into(),
        rebase.segment_offset,
        rebase.kind.0.into(),
    ]
}

/// Where a part of some bytes begins in them.
pub(crate) fn place(bytes: &[u8], part: &[u8]) -> u64 {
    (part.as_ptr() as usize - bytes.as_ptr() as usize) as u64
}

/// The words of a bind: segment, offset, type, library, place and length of the name, flags,
/// addend.
fn bind_words(bytes: &[u8], bind: &Bind<'_>) -> [u64; 8] {
    [
        bind.segment_index.into(),
        bind.segment_offset,
        bind.kind.0.into(),
        bind.dylib.0 as u64,
        place(bytes, bind.symbol),
        bind.symbol.len() as u64,
        bind.flags.0.into(),
        bind.addend as u64,
    ]
}

/// The walk over one of the four opcode streams.
pub fn stream(
    stream: Stream,
    bytes: &[u8],
    pointer_size: u8,
    bounds: Bounds,
    answers: &mut Answers,
) {
    answers.clear();
    if stream == Stream::Rebase {
        let mut walk = rebases(bytes, pointer_size);
        repeat(bounds, answers, |answers| match walk.next() {
            Ok(None) => answers.number(END),
            Ok(Some(rebase)) => answers.item(&rebase_words(rebase)),
            Err(error) => answers.number(number(error)),
        });
    } else {
        let mut walk = binds(stream, bytes, pointer_size);
        repeat(bounds, answers, |answers| match walk.next() {
            Ok(None) => answers.number(END),
            Ok(Some(bind)) => {
                answers.item(&bind_words(bytes, &bind));
                answers.name(bind.symbol);
            }
            Err(error) => answers.number(number(error)),
        });
    }
}

/// Calls on until the bounds are met. A call notes its answer, whose first word is its number.
pub(crate) fn repeat(bounds: Bounds, answers: &mut Answers, mut call: impl FnMut(&mut Answers)) {
    let mut ends = 0;
    for _ in 0..bounds.calls {
        let first = answers.words.len();
        call(answers);
        ends += usize::from(answers.words[first] == END);
        if ends == bounds.ends {
            break;
        }
    }
}
