//! Every length and every field around each structure.

use crate::case::Case;
use crate::gen_fixups::{set, Fixups, HEADER, RECORD};
use crate::gen_streams::{self, STREAMS};
use crate::gen_tries;
use crate::judge::{self, Bench};
use crate::random::Random;
use oracle::Stream;

const CALLS: usize = 40;
/// How many inputs are taken as a base.
const BASES: usize = 12;

/// Runs them all.
pub fn all(bench: &mut Bench, random: &mut Random) {
    let (mut fixups, mut bytes) = (Fixups::default(), Vec::new());
    for _ in 0..BASES {
        fixups.make(random);
        fixups.contents.truncate(300);
        lengths(bench, &fixups);
        header_fields(bench, &fixups);
        records(bench, &fixups);
        for stream in STREAMS {
            gen_streams::stream(random, stream, 8, &mut bytes);
            for length in 0..=bytes.len() {
                bench.judge(Case::Stream {
                    stream,
                    size: 8,
                    calls: CALLS,
                    bytes: &bytes[..length],
                });
            }
        }
        gen_tries::trie(random, &mut bytes);
        for length in 0..=bytes.len() {
            bench.judge(Case::Trie {
                limit: u64::MAX,
                room: 64,
                bytes: &bytes[..length],
            });
        }
    }
    let mut judge = |case: Case<'_>| {
        bench.judge(case);
    };
    bare_headers(&mut judge);
    formats(&mut judge);
    numbers(0..=255, &mut judge);
    ordinals(&mut judge);
    widths(0..16, &mut judge);
    pointers(40_000, &[0, 1, 0x1_0000_0000, u64::MAX], &mut judge);
    libraries(&mut judge);
}

/// The command and the contents, cut at every length.
fn lengths(bench: &mut Bench, fixups: &Fixups) {
    let (bytes, contents) = (&fixups.bytes, &fixups.contents);
    for length in 0..bytes.len() {
        bench.judge_fixups(CALLS, fixups.base, &bytes[..length], contents);
    }
    for length in 0..contents.len().min(80) {
        bench.judge_fixups(CALLS, fixups.base, bytes, &contents[..length]);
    }
}

/// Each field of the header at its limits.
fn header_fields(bench: &mut Bench, fixups: &Fixups) {
    let length = fixups.bytes.len() as u64;
    let mut values = vec![
        0,
        1,
        2,
        3,
        4,
        5,
        27,
        28,
        29,
        0x7fff_ffff,
        0x8000_0000,
        0xffff_ffff,
    ];
    values.extend(length.saturating_sub(9)..length + 3);
    for field in (0..HEADER).step_by(4) {
        for value in &values {
            let mut bytes = fixups.bytes.clone();
            set(&mut bytes, field, *value, 4);
            bench.judge_fixups(CALLS, fixups.base, &bytes, &fixups.contents);
        }
    }
}

/// Each record's size, format, page size, pages and first starts at their limits.
fn records(bench: &mut Bench, fixups: &Fixups) {
    bench.judge(Case::Segments {
        calls: CALLS,
        fixups: &fixups.bytes,
    });
    let places: Vec<usize> = judge::records(&bench.expected)
        .map(|record| record[6] as usize)
        .collect();
    let rest = |place: usize| (fixups.bytes.len() - place) as u64;
    for place in places {
        let record = place - RECORD;
        let mut sizes: Vec<u64> = (18..27).collect();
        sizes.extend(
            (RECORD as u64 + rest(place)).saturating_sub(2)..RECORD as u64 + rest(place) + 3,
        );
        sizes.extend([0, 0x7fff_ffff, 0xffff_fffe, 0xffff_ffff]);
        vary(bench, fixups, record, 4, &sizes);
        vary(bench, fixups, record + 4, 2, &[0, 1, 7, 8, 0x8000, 0xffff]);
        vary(bench, fixups, record + 6, 2, &(0..17).collect::<Vec<u64>>());
        vary(
            bench,
            fixups,
            record + 20,
            2,
            &[0, 1, 2, 3, 4, 5, 6, 7, 8, 0xffff],
        );
        for start in (place..fixups.bytes.len().min(place + 8)).step_by(2) {
            if start + 2 <= fixups.bytes.len() {
                let starts = [
                    0, 1, 4, 0x7fff, 0x8000, 0x8001, 0x8002, 0x8007, 0xfffe, 0xffff,
                ];
                vary(bench, fixups, start, 2, &starts);
            }
        }
    }
}

fn vary(bench: &mut Bench, fixups: &Fixups, at: usize, width: usize, values: &[u64]) {
    for value in values {
        let mut bytes = fixups.bytes.clone();
        set(&mut bytes, at, *value, width);
        bench.judge_fixups(CALLS, fixups.base, &bytes, &fixups.contents);
    }
}

/// A header and nothing else, or hardly more: no segment fits.
pub fn bare_headers(mut judge: impl FnMut(Case<'_>)) {
    for length in HEADER - 2..HEADER + 9 {
        for starts in [
            0,
            24,
            26,
            28,
            29,
            length as u64 - 4,
            length as u64,
            length as u64 + 1,
        ] {
            let mut bytes = vec![0; length];
            for (field, value) in [(4, starts), (8, starts), (12, 28), (16, 1), (20, 1)] {
                if field + 4 <= length {
                    set(&mut bytes, field, value, 4);
                }
            }
            judge(Case::Segments {
                calls: 6,
                fixups: &bytes,
            });
            judge(Case::Imports {
                calls: 6,
                fixups: &bytes,
            });
        }
    }
}

/// Numbers of nine to eleven bytes with each of some last bytes, unsigned and signed.
pub fn numbers(lasts: impl Iterator<Item = u8>, mut judge: impl FnMut(Case<'_>)) {
    let places: [(Stream, &[u8], u8); 3] = [
        (Stream::Rebase, &[0x11, 0x21], 0x51),
        (Stream::Weak, &[0x40, 0x00, 0x70, 0x01, 0x60], 0x90),
        (Stream::Weak, &[0x40, 0x00, 0x72], 0x90),
    ];
    for last in lasts {
        for (padding, length) in [
            (0x80, 8),
            (0xff, 8),
            (0x80, 9),
            (0xff, 9),
            (0x81, 9),
            (0x80, 10),
        ] {
            let number = [&vec![padding; length][..], &[last]].concat();
            for (stream, before, after) in places {
                let bytes = [before, &number, &[after]].concat();
                judge(Case::Stream {
                    stream,
                    size: 8,
                    calls: 6,
                    bytes: &bytes,
                });
            }
        }
    }
}

/// Library ordinals around the largest.
pub fn ordinals(mut judge: impl FnMut(Case<'_>)) {
    for (first, last) in [
        (0xfe, 7),
        (0xff, 7),
        (0x80, 8),
        (0x81, 8),
        (0xff, 0x0f),
        (0xff, 0x7f),
    ] {
        let number = [first, 0xff, 0xff, 0xff, last];
        let bytes = [
            &[0x20][..],
            &number,
            &[0x40, 0x61, 0x00, 0x51, 0x70, 0x00, 0x90],
        ]
        .concat();
        for stream in [Stream::Plain, Stream::Weak, Stream::Lazy] {
            judge(Case::Stream {
                stream,
                size: 4,
                calls: 6,
                bytes: &bytes,
            });
        }
    }
}

/// The preflights of one place of each type, at 36, with sizes at which it just is inside or just is
/// not.
pub fn widths(kinds: impl Iterator<Item = u8>, mut judge: impl FnMut(Case<'_>)) {
    for kind in kinds {
        let rebase = [0x10 | kind, 0x22, 36, 0x51];
        let bind = [0x11, 0x40, 0x61, 0x00, 0x50 | kind, 0x72, 36, 0x90];
        for stream in STREAMS {
            let bytes: &[u8] = match stream {
                Stream::Rebase => &rebase,
                _ => &bind,
            };
            for (size, room) in [(4, 39), (4, 40), (8, 39), (8, 40), (8, 43), (8, 44)] {
                judge(Case::Preflight {
                    stream,
                    size,
                    sizes: &[0, 0, room],
                    bytes,
                });
            }
        }
    }
}

/// The bytes of one segment with one page that starts at 0.
fn one_page(format: u64) -> Vec<u8> {
    let mut bytes = vec![0; HEADER + 8 + RECORD + 2];
    for (at, value, width) in [
        (4, 28, 4),
        (28, 1, 4),
        (32, 8, 4),
        (36, 24, 4),
        (40, 64, 2),
        (56, 1, 2),
    ] {
        set(&mut bytes, at, value, width);
    }
    set(&mut bytes, 42, format, 2);
    bytes
}

/// Every pointer format, and some that there are not.
pub fn formats(mut judge: impl FnMut(Case<'_>)) {
    for format in (0..17).chain([0x102, 0x8003, 0xffff]) {
        let fixups = one_page(format);
        let (fixups, contents) = (&fixups[..], &[0x5a; 16][..]);
        judge(Case::Pages {
            nth: 0,
            base: 1,
            calls: 6,
            fixups,
            contents,
        });
    }
}

/// Every bit of a pointer, alone and alone missing, in each format, with so many bytes behind it.
pub fn pointers(length: usize, bases: &[u64], mut judge: impl FnMut(Case<'_>)) {
    for format in [2, 3, 6] {
        let fixups = one_page(format);
        for bit in 0..if format == 3 { 32 } else { 64 } {
            for pointer in [1u64 << bit, !(1 << bit)] {
                let mut contents = vec![0; length];
                set(&mut contents, 0, pointer, 8);
                for base in bases {
                    let (base, fixups, contents) = (*base, &fixups[..], &contents[..]);
                    judge(Case::Pages {
                        nth: 0,
                        base,
                        calls: 8,
                        fixups,
                        contents,
                    });
                }
            }
        }
    }
}

/// Library values, weak and not, in each import format: all that are near the limits.
pub fn libraries(mut judge: impl FnMut(Case<'_>)) {
    for format in [1, 2, 3] {
        let values: u64 = if format == 3 { 0x10000 } else { 0x100 };
        for value in
            (0..values).filter(|value| *value < 3 || *value > values - 24 || value % 251 == 0)
        {
            for weak in [0, 1] {
                let mut bytes = vec![0; HEADER + 16 + 2];
                for (at, field) in [(8, 28), (12, 44), (16, 1), (20, format)] {
                    set(&mut bytes, at, field, 4);
                }
                let width = if format == 3 { 16 } else { 8 };
                set(&mut bytes, 28, value | weak << width, 8);
                set(&mut bytes, 28 + width as usize / 2, 0xffff_fffe, 4);
                judge(Case::Imports {
                    calls: 4,
                    fixups: &bytes,
                });
            }
        }
    }
}
