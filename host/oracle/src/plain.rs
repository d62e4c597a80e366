//! A plain preflight in Rust, over the crate's own parser of operations: what the reader's is timed
//! against and compared with. It is written for speed. Operations are only counted; where there is
//! a fault, a second pass over the stream finds its position.

use crate::operations::width;
use crate::read::macho::{BindOperation, RebaseOperation};
use crate::read::Bytes;
use crate::streams::{bind_operations, rebase_operations};
use crate::texts::number;
use crate::Stream;

/// The most sizes of segments, and the largest.
const SEGMENTS: usize = 16;
const LARGEST: u64 = 1 << 62;
/// Up to so many places of an operation are judged one by one, more of them by a division.
const FEW: u64 = 4;

/// The verdict on a stream, in the numbers of the C boundary: of a fault its number, position and
/// index; of a pass 0, how many operations were read, and 0.
pub fn preflight(stream: Stream, bytes: &[u8], pointer_size: u64, sizes: &[u64]) -> [u64; 3] {
    if pointer_size != 4 && pointer_size != 8 {
        return [1, 0, 0];
    }
    if sizes.len() > SEGMENTS || sizes.iter().any(|size| *size > LARGEST) {
        return [21, 0, 0];
    }
    let registers = Registers::start(stream, pointer_size, sizes);
    let ending = match stream {
        Stream::Rebase => rebases(bytes, registers),
        _ => binds(bytes, registers, stream == Stream::Lazy),
    };
    match ending {
        Ok(operations) => [0, operations, 0],
        Err(fault) => {
            let position = position(stream, bytes, fault.before);
            [fault.number, position, fault.index]
        }
    }
}

/// The first fault, and how many operations are before its own.
struct Fault {
    number: u64,
    before: u64,
    index: u64,
}

/// What a preflight keeps between operations.
#[derive(Clone, Copy)]
struct Registers<'a> {
    stream: Stream,
    pointer_size: u64,
    sizes: &'a [u64],
    /// How many operations are behind.
    read: u64,
    segment: Option<u8>,
    /// How many bytes a place takes, by its type.
    width: u64,
    typed: bool,
    sourced: bool,
    named: bool,
    offset: u64,
    /// A place is inside if its offset is below this; 0 where something is unset.
    fits: u64,
}

impl<'a> Registers<'a> {
    /// A rebase needs neither library nor symbol.
    fn start(stream: Stream, pointer_size: u64, sizes: &'a [u64]) -> Self {
        Registers {
            stream,
            pointer_size,
            sizes,
            read: 0,
            segment: None,
            width: pointer_size,
            typed: matches!(stream, Stream::Weak | Stream::Lazy),
            sourced: matches!(stream, Stream::Rebase | Stream::Weak),
            named: stream == Stream::Rebase,
            offset: 0,
            fits: 0,
        }
    }

    /// Anew whenever something is set that a place needs.
    fn fit(&mut self) {
        let set = self.typed && self.sourced && self.named;
        let segment = self.segment.filter(|_| set).map(usize::from);
        let size = segment.and_then(|index| self.sizes.get(index));
        self.fits = size.map_or(0, |size| (size + 1).saturating_sub(self.width));
    }

    fn point(&mut self, segment: u8, offset: u64) {
        self.segment = Some(segment);
        self.offset = offset;
        self.fit();
    }

    fn set_type(&mut self, kind: u8) {
        self.width = width(self.stream, kind, self.pointer_size);
        self.typed = true;
        self.fit();
    }

    fn set_library(&mut self) {
        self.sourced = true;
        self.fit();
    }

    fn set_symbol(&mut self) {
        if !self.named {
            self.named = true;
            self.fit();
        }
    }

    fn add(&mut self, added: u64) {
        self.offset = self.offset.wrapping_add(added);
    }

    /// Some places in a row, and behind each the pointer size and an addition.
    #[inline]
    fn places(&mut self, count: u64, addition: u64) -> Result<(), Fault> {
        let advance = self.pointer_size.wrapping_add(addition);
        if count > FEW {
            return self.repeat(count, advance);
        }
        for index in 0..count {
            if self.offset >= self.fits {
                return Err(self.outside(index));
            }
            self.add(advance);
        }
        Ok(())
    }

    fn repeat(&mut self, count: u64, advance: u64) -> Result<(), Fault> {
        let inside = self.inside(advance);
        if inside < count {
            return Err(self.outside(inside));
        }
        self.add(advance.wrapping_mul(count));
        Ok(())
    }

    /// How many places in a row are inside, from here on. An advance above 2^63 is a step back.
    fn inside(&self, advance: u64) -> u64 {
        if self.offset >= self.fits {
            return 0;
        }
        let (way, step) = if advance <= 1 << 63 {
            (self.fits - 1 - self.offset, advance)
        } else {
            (self.offset, advance.wrapping_neg())
        };
        way.checked_div(step).map_or(u64::MAX, |steps| steps + 1)
    }

    /// The fault of a place that does not fit: something is unset, or it is outside.
    #[cold]
    fn outside(&self, index: u64) -> Fault {
        let number = if self.segment.is_none() {
            5
        } else if !self.typed {
            6
        } else if !self.sourced {
            7
        } else if !self.named {
            8
        } else {
            20
        };
        self.fault(number, index)
    }

    fn fault(&self, number: u64, index: u64) -> Fault {
        let before = self.read;
        Fault {
            number,
            before,
            index,
        }
    }
}

fn rebases(bytes: &[u8], mut now: Registers<'_>) -> Result<u64, Fault> {
    use RebaseOperation::*;
    let mut operations = rebase_operations(bytes);
    while let Some((_, operation)) = operations.next().map_err(|e| now.fault(number(e), 0))? {
        match operation {
            Done => return Ok(now.read + 1),
            SetType { kind } => now.set_type(kind.0),
            SetSegmentAndOffset { index, offset } => now.point(index, offset),
            AddAddr { offset } => now.add(offset),
            AddAddrScaled { count } => now.add(u64::from(count) * now.pointer_size),
            DoRebaseTimes { count } => now.places(count, 0)?,
            DoRebaseAddAddr { offset } => now.places(1, offset)?,
            DoRebaseTimesSkipping { count, skip } => now.places(count, skip)?,
        }
        now.read += 1;
    }
    Ok(now.read)
}

/// Done of a lazy stream puts all but the count back to the start.
fn binds(bytes: &[u8], start: Registers<'_>, lazy: bool) -> Result<u64, Fault> {
    use BindOperation::*;
    let (mut now, mut operations) = (start, bind_operations(bytes));
    while let Some((_, operation)) = operations.next().map_err(|e| now.fault(number(e), 0))? {
        match operation {
            Done if lazy => {
                let read = now.read;
                now = Registers { read, ..start };
            }
            Done => return Ok(now.read + 1),
            SetDylibOrdinal { ordinal } if i32::try_from(ordinal).is_err() => {
                return Err(now.fault(4, 0))
            }
            SetDylibOrdinal { .. } | SetDylibSpecial { .. } => now.set_library(),
            SetSymbol { .. } => now.set_symbol(),
            SetType { kind } => now.set_type(kind.0),
            SetAddend { .. } => (),
            SetSegmentAndOffset {
                segment_index,
                offset,
            } => now.point(segment_index, offset),
            AddAddr { offset } => now.add(offset),
            DoBind => now.places(1, 0)?,
            DoBindAddAddr { offset } => now.places(1, offset)?,
            DoBindAddAddrScaled { count } => now.places(1, u64::from(count) * now.pointer_size)?,
            DoBindTimesSkipping { count, skip } => now.places(count, skip)?,
        }
        now.read += 1;
    }
    Ok(now.read)
}

/// Where an operation starts that has so many before it, all of which were read.
fn position(stream: Stream, bytes: &[u8], before: u64) -> u64 {
    let mut rest = Bytes(bytes);
    for _ in 0..before {
        skip(stream, &mut rest).expect("it was read before");
    }
    (bytes.len() - rest.len()) as u64
}

/// Skips an operation by its opcode, which tells its operands.
fn skip(stream: Stream, rest: &mut Bytes<'_>) -> Result<(), ()> {
    let opcode = rest.read::<u8>()? >> 4;
    let numbers = match (stream, opcode) {
        (Stream::Rebase, 2 | 3 | 6 | 7) => 1,
        (Stream::Rebase, 8) => 2,
        (Stream::Rebase, _) => 0,
        (_, 4) => return rest.read_string().map(|_| ()),
        (_, 6) => return rest.read_sleb128().map(|_| ()),
        (_, 2 | 7 | 8 | 10) => 1,
        (_, 12) => 2,
        _ => 0,
    };
    (0..numbers).try_for_each(|_| rest.read_uleb128().map(|_| ()))
}
