//! Streams whose last operation is one repeat, often of very many places, with a size at which its
//! last place just is inside or just is not.

use crate::gen_streams::{kind, uleb};
use crate::preflight::LARGEST;
use crate::random::Random;
use oracle::Stream;

/// Puts what a repeat needs before it, everything but segment and offset, and gives the type of its
/// places, which some streams have from the start on.
fn before(random: &mut Random, stream: Stream, bytes: &mut Vec<u8>) -> u8 {
    let (given, opcode): (&[u8], u8) = match stream {
        Stream::Rebase => (&[], 0x10),
        Stream::Plain | Stream::Lazy => (&[0x11, 0x40, 0x61, 0x00], 0x50),
        Stream::Weak => (&[0x40, 0x61, 0x00], 0x50),
    };
    bytes.clear();
    bytes.extend_from_slice(given);
    if matches!(stream, Stream::Weak | Stream::Lazy) && random.once_in(2) {
        return 1;
    }
    let kind = kind(random);
    bytes.push(opcode | kind);
    kind
}

/// How far the places are apart, and how many there are: mostly all of them within the largest size.
fn steps(random: &mut Random, size: u64, width: u64) -> (u64, u64) {
    let step = match random.below(6) {
        0 => random.below(3) as u64,
        1 => size,
        _ => (1 << random.below(64)) + random.below(3) as u64,
    };
    let most = (LARGEST - width).checked_div(step).unwrap_or(u64::MAX >> 1) + 1;
    let count = (random.next() >> random.below(64)).max(1);
    let any = random.once_in(8);
    (step, if any { count } else { count.min(most) })
}

/// Makes a stream and gives the size of its segment, which is 2.
pub fn repeat(random: &mut Random, stream: Stream, size: u64, bytes: &mut Vec<u8>) -> u64 {
    let kind = before(random, stream, bytes);
    let width = oracle::width(stream, kind, size);
    let (step, count) = steps(random, size, width);
    let (span, slack) = (step.wrapping_mul(count - 1), random.below(3) as u64);
    let backwards = random.once_in(2);
    let offset = if backwards {
        span.wrapping_add(slack).wrapping_sub(1)
    } else {
        slack
    };
    let advance = if backwards { step.wrapping_neg() } else { step };
    let farthest = if backwards {
        offset
    } else {
        offset.wrapping_add(span)
    };
    bytes.push(if stream == Stream::Rebase { 0x22 } else { 0x72 });
    uleb(offset, bytes);
    bytes.push(if stream == Stream::Rebase { 0x80 } else { 0xc0 });
    uleb(count, bytes);
    uleb(advance.wrapping_sub(size), bytes);
    if random.once_in(4) {
        bytes.push(0);
    }
    farthest
        .wrapping_add(width)
        .wrapping_add(random.below(3) as u64)
        .wrapping_sub(1)
        .min(LARGEST)
}
