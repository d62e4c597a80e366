//! What a preflight has to say, found place by place with the crate's operations and its walk.

use crate::trie_reading::number;
use oracle::{Answers, Operation, Places, Stream};

/// The most places of one operation that are stepped through.
const STEPPED: u64 = 200;
/// The largest size of a segment.
pub const LARGEST: u64 = 1 << 62;

/// What becomes of one operation.
enum Verdict {
    Inside,
    Fault(u64, u64),
    /// It has too many places for the walk to be stepped behind it.
    Far,
}

/// The verdict, in `expected`: its number and two words. False where too many places are followed
/// by more operations.
pub fn expected(
    stream: Stream,
    size: u64,
    sizes: &[u64],
    bytes: &[u8],
    expected: &mut Answers,
) -> bool {
    expected.clear();
    let verdict = if size != 4 && size != 8 {
        Some([1, 0, 0])
    } else if sizes.len() > 16 || sizes.iter().any(|size| *size > LARGEST) {
        Some([21, 0, 0])
    } else {
        flight(stream, size, sizes, bytes)
    };
    expected.words.extend(verdict.iter().flatten());
    verdict.is_some()
}

fn flight(stream: Stream, size: u64, sizes: &[u64], bytes: &[u8]) -> Option<[u64; 3]> {
    let mut walk = oracle::places(stream, bytes, size as u8);
    let width = |kind| oracle::width(stream, kind, size);
    let (mut at, mut operations, mut far) = (0, 0, false);
    while at < bytes.len() {
        let position = at as u64;
        let operation = match oracle::operation(stream, &bytes[at..]) {
            Err(refusal) => return Some([refusal, position, 0]),
            Ok(operation) => operation,
        };
        operations += 1;
        at = behind(stream, bytes, at)?;
        match operation {
            Operation::Done => break,
            Operation::Places(0) | Operation::Other => (),
            Operation::Places(_) if far => return None,
            Operation::Places(count) => match repeat(&mut walk, count, width, sizes) {
                Verdict::Inside => (),
                Verdict::Fault(refusal, index) => return Some([refusal, position, index]),
                Verdict::Far => far = true,
            },
        }
    }
    Some([0, operations, 0])
}

/// Steps through the places of an operation. Where they are too many, the first two tell how the
/// others lie, and the walk is of no use behind them.
fn repeat(walk: &mut Places<'_>, count: u64, width: impl Fn(u8) -> u64, sizes: &[u64]) -> Verdict {
    let (mut first, mut foretold) = ([0; 2], Verdict::Inside);
    for index in 0..count.min(STEPPED) {
        let (segment, offset, kind) = match walk.step() {
            Err(refusal) => return Verdict::Fault(refusal, 0),
            Ok(place) => place.expect("an operation has its places"),
        };
        let room = sizes.get(segment as usize).copied();
        let width = width(kind);
        if room.is_none_or(|room| u128::from(offset) + u128::from(width) > room.into()) {
            return agreed(foretold, Verdict::Fault(20, index));
        }
        if let Some(place) = first.get_mut(index as usize) {
            *place = offset;
        }
        if index == 1 {
            foretold = far(first, count, room.expect("the place is inside") - width);
            if count > STEPPED {
                return foretold;
            }
        }
    }
    agreed(foretold, Verdict::Inside)
}

/// What was found place by place; no verdict at all where the arithmetic foretold something else.
fn agreed(foretold: Verdict, found: Verdict) -> Verdict {
    match (foretold, &found) {
        (Verdict::Fault(_, said), Verdict::Fault(_, is)) if said == *is => found,
        (Verdict::Inside, Verdict::Fault(_, 0 | 1)) => found,
        (Verdict::Inside | Verdict::Far, Verdict::Inside) => found,
        _ => Verdict::Fault(u64::MAX, 0),
    }
}

/// Judges very many places in a row, of which the first two are inside: they go on in the same
/// steps up to the last offset, or down to 0. A step over either is outside: no size is above 2^62.
fn far(first: [u64; 2], count: u64, last: u64) -> Verdict {
    let [from, to] = first;
    let inside = match from.cmp(&to) {
        std::cmp::Ordering::Equal => return Verdict::Far,
        std::cmp::Ordering::Less => (last - from) / (to - from) + 1,
        std::cmp::Ordering::Greater => from / (from - to) + 1,
    };
    if inside < count {
        Verdict::Fault(20, inside)
    } else {
        Verdict::Far
    }
}

/// The place behind an operation that can be read: its opcode tells its operands.
fn behind(stream: Stream, bytes: &[u8], at: usize) -> Option<usize> {
    let (opcode, at) = (bytes[at] >> 4, at + 1);
    let numbers = match (stream, opcode) {
        (Stream::Rebase, 2 | 3 | 6 | 7) => 1,
        (Stream::Rebase, 8) => 2,
        (Stream::Rebase, _) => 0,
        (_, 4) => {
            return bytes[at..]
                .iter()
                .position(|byte| *byte == 0)
                .map(|nul| at + nul + 1)
        }
        // A signed number is as long as its continuation bits say.
        (_, 6) => {
            return bytes[at..]
                .iter()
                .position(|byte| byte & 0x80 == 0)
                .map(|last| at + last + 1)
        }
        (_, 2 | 7 | 8 | 10) => 1,
        (_, 12) => 2,
        _ => 0,
    };
    (0..numbers).try_fold(at, |at, _| number(bytes, at).map(|(_, next)| next))
}
