//! Text relocations: a place of type 2 or 3 takes four bytes, whatever the pointer size. The places
//! of a repeat stay as far apart as they were.

use brinetrellis::preflight::{lazy_binds, plain_binds, rebases, weak_binds};
use brinetrellis::{Refusal, Verdict};

const TEXT: [u8; 2] = [2, 3];
const LARGEST: u64 = 1 << 62;
/// Half of the places of a long repeat.
const HALF: u64 = 1 << 40;

/// A kind of stream: its preflight, what a place needs besides type and segment, and four opcodes.
struct Kind {
    judge: fn(&[u8], u64, &[u64]) -> Verdict,
    before: &'static [u8],
    set_type: u8,
    set_segment: u8,
    once: &'static [u8],
    times_skipping: u8,
}

const REBASES: Kind = Kind {
    judge: rebases,
    before: &[],
    set_type: 0x10,
    set_segment: 0x20,
    once: &[0x51],
    times_skipping: 0x80,
};

/// Library 1 and the name `a`.
const PLAIN: Kind = Kind {
    judge: plain_binds,
    before: &[0x11, 0x40, 0x61, 0x00],
    set_type: 0x50,
    set_segment: 0x70,
    once: &[0x90],
    times_skipping: 0xc0,
};

const KINDS: [Kind; 4] = [
    REBASES,
    PLAIN,
    Kind {
        judge: weak_binds,
        before: &[0x40, 0x61, 0x00],
        ..PLAIN
    },
    Kind {
        judge: lazy_binds,
        ..PLAIN
    },
];

fn uleb(mut value: u64) -> Vec<u8> {
    let mut bytes = Vec::new();
    while value > 0x7f {
        bytes.push(value as u8 | 0x80);
        value >>= 7;
    }
    bytes.push(value as u8);
    bytes
}

/// A stream whose last operation yields places, and where that operation starts.
struct Stream(Vec<u8>, u64);

impl Stream {
    fn ending(kind: &Kind, of_type: u8, offset: u64, last: &[u8]) -> Stream {
        let mut bytes = kind.before.to_vec();
        bytes.extend([kind.set_type | of_type, kind.set_segment | 2]);
        bytes.extend(uleb(offset));
        let position = bytes.len() as u64;
        bytes.extend(last);
        Stream(bytes, position)
    }

    /// One place, in segment 2.
    fn place(kind: &Kind, of_type: u8, offset: u64) -> Stream {
        Stream::ending(kind, of_type, offset, kind.once)
    }

    /// So many places in segment 2, each so far from the one before it, modulo 2^64; of 64 bits.
    fn repeat(kind: &Kind, of_type: u8, offset: u64, count: u64, advance: u64) -> Stream {
        let skip = advance.wrapping_sub(8);
        let last = [vec![kind.times_skipping], uleb(count), uleb(skip)].concat();
        Stream::ending(kind, of_type, offset, &last)
    }

    /// It passes in a segment of a size.
    fn passes(&self, kind: &Kind, pointer_size: u64, size: u64) {
        let said = (kind.judge)(&self.0, pointer_size, &[0, 0, size]);
        assert!(said.passes(), "{:x?} in {size}: {said:?}", self.0);
    }

    /// In a segment of a size, its place of this index is the first that is outside.
    fn outside(&self, kind: &Kind, pointer_size: u64, size: u64, index: u64) {
        let fault = Verdict::Fault {
            refusal: Refusal::PlaceOutside,
            position: self.1,
            index,
        };
        let said = (kind.judge)(&self.0, pointer_size, &[0, 0, size]);
        assert_eq!(said, fault, "{:x?} in {size}", self.0);
    }
}

#[test]
fn one_in_the_last_four_bytes_passes() {
    for kind in KINDS {
        for of_type in TEXT {
            let stream = Stream::place(&kind, of_type, 36);
            stream.passes(&kind, 8, 40);
            stream.outside(&kind, 8, 39, 0);
        }
    }
}

#[test]
fn a_place_of_another_type_has_the_pointer_size() {
    for kind in KINDS {
        for of_type in (0..16).filter(|of_type| !TEXT.contains(of_type)) {
            let stream = Stream::place(&kind, of_type, 36);
            stream.outside(&kind, 8, 40, 0);
            stream.outside(&kind, 8, 43, 0);
            stream.passes(&kind, 8, 44);
        }
    }
}

#[test]
fn with_pointers_of_four_bytes_every_type_is_alike() {
    for kind in KINDS {
        for of_type in 0..16 {
            let stream = Stream::place(&kind, of_type, 36);
            stream.passes(&kind, 4, 40);
            stream.outside(&kind, 4, 39, 0);
        }
    }
}

#[test]
fn a_long_repeat_forwards() {
    let last = 8 * (2 * HALF - 1);
    for kind in KINDS {
        for of_type in TEXT {
            let stream = Stream::repeat(&kind, of_type, 0, 2 * HALF, 8);
            stream.passes(&kind, 8, last + 4);
            stream.outside(&kind, 8, last + 3, 2 * HALF - 1);
            // In the middle: the place at 8 × HALF ends with the segment, and the next is outside;
            // with a byte less, it is.
            stream.outside(&kind, 8, 8 * HALF + 4, HALF + 1);
            stream.outside(&kind, 8, 8 * HALF + 3, HALF);
        }
        let pointers = Stream::repeat(&kind, 1, 0, 2 * HALF, 8);
        pointers.outside(&kind, 8, last + 4, 2 * HALF - 1);
        pointers.outside(&kind, 8, 8 * HALF + 4, HALF);
    }
}

#[test]
fn a_long_repeat_backwards() {
    let (first, back) = (8 * HALF, 8u64.wrapping_neg());
    for kind in KINDS {
        for of_type in TEXT {
            // From the last four bytes down to 0.
            let stream = Stream::repeat(&kind, of_type, first, HALF + 1, back);
            stream.passes(&kind, 8, first + 4);
            stream.outside(&kind, 8, first + 3, 0);
            // In the middle, behind the place at 0; one byte lower, before there is one.
            let below = Stream::repeat(&kind, of_type, first, 2 * HALF, back);
            below.outside(&kind, 8, first + 4, HALF + 1);
            let lower = Stream::repeat(&kind, of_type, first - 1, 2 * HALF, back);
            lower.outside(&kind, 8, first + 3, HALF);
        }
        let pointers = Stream::repeat(&kind, 1, first, 2 * HALF, back);
        pointers.outside(&kind, 8, first + 4, 0);
    }
}

#[test]
fn at_the_end_of_the_numbers_it_does_not_wrap() {
    for kind in KINDS {
        for of_type in TEXT {
            Stream::place(&kind, of_type, LARGEST - 4).passes(&kind, 8, LARGEST);
            Stream::place(&kind, of_type, LARGEST - 3).outside(&kind, 8, LARGEST, 0);
            // Offset and width come to 2^64, and to more.
            for below in [4u64, 3, 1] {
                let stream = Stream::place(&kind, of_type, below.wrapping_neg());
                stream.outside(&kind, 8, LARGEST, 0);
                stream.outside(&kind, 8, 0, 0);
            }
        }
    }
}

#[test]
fn the_type_of_the_moment_counts() {
    // Of type 3 at 36, then of type 1 at 28, by the operation at byte 7; then there again.
    let mut stream = *b"\x13\x20\x24\x51\x11\x20\x1c\x51\x20\x24\x51";
    let outside = |position| Verdict::Fault {
        refusal: Refusal::PlaceOutside,
        position,
        index: 0,
    };
    assert_eq!(rebases(&stream, 8, &[40]), outside(10));
    assert_eq!(
        rebases(&stream[..10], 8, &[40]),
        Verdict::Passes { operations: 7 }
    );
    // With the types the other way round.
    (stream[0], stream[4]) = (0x11, 0x13);
    assert_eq!(rebases(&stream, 8, &[40]), outside(3));
}

#[test]
fn done_puts_the_type_of_a_lazy_start_back() {
    // Of type 2 at 36; behind the Done, at byte 8, the same place of type 1.
    let place = Stream::place(&KINDS[3], 2, 36).0;
    let again = b"\x11\x40\x61\x00\x72\x24\x90";
    let stream = [&place[..], &[0x00], again].concat();
    let outside = Verdict::Fault {
        refusal: Refusal::PlaceOutside,
        position: 15,
        index: 0,
    };
    assert_eq!(lazy_binds(&stream, 8, &[0, 0, 40]), outside);
    assert!(lazy_binds(&stream, 8, &[0, 0, 44]).passes());
}
