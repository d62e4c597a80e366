//! Single operations and places as the crate reads them, for a preflight that is found place by
//! place.

use crate::loader;
use crate::read::macho::{BindIterator, BindOperation, RebaseIterator, RebaseOperation};
use crate::streams::{bind_operations, binds, rebase_operations, rebases};
use crate::texts::number;
use crate::Stream;

/// What an operation means to a preflight.
#[derive(Debug, Clone, Copy, PartialEq, Eq)]
pub enum Operation {
    /// Done, of a stream that ends there.
    Done,
    /// So many places.
    Places(u64),
    /// It yields no place.
    Other,
}

/// The operation that the crate reads first in some bytes, which are not empty, or the number of
/// its error.
pub fn operation(stream: Stream, bytes: &[u8]) -> Result<Operation, u64> {
    if stream == Stream::Rebase {
        let read = rebase_operations(bytes).next();
        let (_, operation) = read.map_err(number)?.expect("there are bytes");
        return Ok(match operation {
            RebaseOperation::Done => Operation::Done,
            RebaseOperation::DoRebaseTimes { count } => Operation::Places(count),
            RebaseOperation::DoRebaseAddAddr { .. } => Operation::Places(1),
            RebaseOperation::DoRebaseTimesSkipping { count, .. } => Operation::Places(count),
            _ => Operation::Other,
        });
    }
    let read = bind_operations(bytes).next();
    let (_, operation) = read.map_err(number)?.expect("there are bytes");
    match operation {
        BindOperation::Done if stream != Stream::Lazy => Ok(Operation::Done),
        BindOperation::SetDylibOrdinal { ordinal } if i32::try_from(ordinal).is_err() => Err(4),
        BindOperation::DoBind => Ok(Operation::Places(1)),
        BindOperation::DoBindAddAddr { .. } => Ok(Operation::Places(1)),
        BindOperation::DoBindAddAddrScaled { .. } => Ok(Operation::Places(1)),
        BindOperation::DoBindTimesSkipping { count, .. } => Ok(Operation::Places(count)),
        _ => Ok(Operation::Other),
    }
}

/// The places of a stream one by one.
pub enum Places<'data> {
    Rebases(RebaseIterator<'data>),
    Binds(BindIterator<'data>),
}

/// The crate's walk over a stream, for its places only.
pub fn places(stream: Stream, bytes: &[u8], pointer_size: u8) -> Places<'_> {
    match stream {
        Stream::Rebase => Places::Rebases(rebases(bytes, pointer_size)),
        _ => Places::Binds(binds(stream, bytes, pointer_size)),
    }
}

impl Places<'_> {
    /// The next place, its segment, offset and type, or the number of the walk's error; nothing at
    /// an end.
    pub fn step(&mut self) -> Result<Option<(u64, u64, u8)>, u64> {
        let place = match self {
            Places::Rebases(walk) => walk
                .next()
                .map(|r| r.map(|r| (r.segment_index, r.segment_offset, r.kind.0))),
            Places::Binds(walk) => walk
                .next()
                .map(|b| b.map(|b| (b.segment_index, b.segment_offset, b.kind.0))),
        };
        place
            .map(|p| p.map(|(segment, offset, kind)| (segment.into(), offset, kind)))
            .map_err(number)
    }
}

/// How many bytes a place takes, by what mach-o/loader.h calls its type: four if it is a text
/// relocation of 32 bits, else the pointer size. The crate does not say.
pub fn width(stream: Stream, kind: u8, pointer_size: u64) -> u64 {
    let [absolute, relative] = match stream {
        Stream::Rebase => [
            loader::REBASE_TYPE_TEXT_ABSOLUTE32,
            loader::REBASE_TYPE_TEXT_PCREL32,
        ],
        _ => [
            loader::BIND_TYPE_TEXT_ABSOLUTE32,
            loader::BIND_TYPE_TEXT_PCREL32,
        ],
    };
    if kind == absolute || kind == relative {
        4
    } else {
        pointer_size
    }
}
