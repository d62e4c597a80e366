//! The sections of a run: what each puts to the judge.

use crate::boundaries;
use crate::case::Case;
use crate::damage::damage;
use crate::exhaustive;
use crate::gen_fixups::Fixups;
use crate::gen_repeats;
use crate::gen_streams::{self, STREAMS};
use crate::gen_tries;
use crate::judge::Bench;
use crate::made_states;
use crate::preflight::LARGEST;
use crate::random::Random;
use crate::samples;
use crate::starts;
use crate::states::{self, Lent};
use oracle::Stream;

/// How many cases a section has.
#[derive(Clone, Copy)]
pub enum Amount {
    /// So many thousandths of the random cases.
    Share(u64),
    /// As many as it makes.
    Fixed,
}

pub struct Section {
    pub name: &'static str,
    /// Whether it needs the judge.
    pub judged: bool,
    pub amount: Amount,
    pub run: fn(&mut Bench, &mut Random, u64),
}

const fn judged(name: &'static str, share: u64, run: fn(&mut Bench, &mut Random, u64)) -> Section {
    Section {
        name,
        judged: true,
        amount: Amount::Share(share),
        run,
    }
}

/// The sections besides the short inputs.
pub const SECTIONS: [Section; 16] = [
    Section {
        name: "samples",
        judged: false,
        amount: Amount::Fixed,
        run: |bench, _, _| samples::all(bench),
    },
    Section {
        name: "states",
        judged: false,
        amount: Amount::Share(60),
        run: any_states,
    },
    Section {
        name: "starts",
        judged: false,
        amount: Amount::Share(20),
        run: any_starts,
    },
    Section {
        name: "joined tries",
        judged: false,
        amount: Amount::Share(10),
        run: joined,
    },
    Section {
        name: "boundaries",
        judged: true,
        amount: Amount::Fixed,
        run: |bench, random, _| boundaries::all(bench, random),
    },
    Section {
        name: "deep tries",
        judged: true,
        amount: Amount::Fixed,
        run: deep_tries,
    },
    judged("streams", 220, |bench, random, cases| {
        streams(bench, random, cases, 14, false)
    }),
    judged("resumed streams", 90, |bench, random, cases| {
        streams(bench, random, cases, 3, false)
    }),
    judged("damaged streams", 130, |bench, random, cases| {
        streams(bench, random, cases, 14, true)
    }),
    judged("states of streams", 60, stream_states),
    judged("preflights", 110, preflights),
    judged("preflights of repeats", 40, repeats),
    judged("tries", 40, |bench, random, cases| {
        tries(bench, random, cases)
    }),
    judged("limits of tries", 10, limits),
    judged("fixups", 110, |bench, random, cases| {
        fixups(bench, random, cases, false)
    }),
    judged("damaged fixups", 100, |bench, random, cases| {
        fixups(bench, random, cases, true)
    }),
];

/// Few calls for most cases: a repeat may be very long.
fn calls(random: &mut Random) -> usize {
    if random.once_in(2000) {
        3000
    } else {
        32
    }
}

fn streams(bench: &mut Bench, random: &mut Random, cases: u64, dones: usize, damaged: bool) {
    let mut bytes = Vec::new();
    while bench.cases < cases {
        let stream = random.pick(&STREAMS);
        gen_streams::stream(random, stream, dones, &mut bytes);
        if damaged {
            damage(random, &mut bytes);
        }
        let (size, calls) = (random.pick(&[4, 8]), calls(random));
        bench.judge(Case::Stream {
            stream,
            size,
            calls,
            bytes: &bytes,
        });
    }
}

fn stream_states(bench: &mut Bench, random: &mut Random, cases: u64) {
    let mut bytes = Vec::new();
    while bench.cases < cases {
        made_states::rebase(random, &mut bytes, bench);
        made_states::bind(random, &mut bytes, bench);
    }
}

fn any_states(bench: &mut Bench, random: &mut Random, cases: u64) {
    let mut lent = Lent::default();
    while bench.cases < cases {
        states::one(random, &mut lent, bench);
    }
}

fn any_starts(bench: &mut Bench, random: &mut Random, cases: u64) {
    while bench.cases < cases {
        starts::one(random, bench);
    }
}

fn repeats(bench: &mut Bench, random: &mut Random, cases: u64) {
    let mut bytes = Vec::new();
    while bench.cases < cases {
        let (stream, size) = (random.pick(&STREAMS), random.pick(&[4, 8]));
        let room = gen_repeats::repeat(random, stream, size, &mut bytes);
        bench.judge(Case::Preflight {
            stream,
            size,
            sizes: &[0, 0, room],
            bytes: &bytes,
        });
    }
}

/// Sizes around the offsets of a stream: mostly large enough for some places and not for all.
pub fn sizes(random: &mut Random) -> ([u64; 17], usize) {
    let mut sizes = [0; 17];
    let count = if random.once_in(40) {
        17
    } else {
        random.pick(&[0, 3, 16, 16, 16])
    };
    for size in &mut sizes {
        *size = match random.below(16) {
            0 => 0,
            1 => random.pick(&[LARGEST, LARGEST - 1]),
            2 => random.below(16) as u64,
            3 if random.once_in(8) => LARGEST + 1 + random.below(2) as u64,
            4..=9 => 1 << 40,
            _ => 8 + random.below(160) as u64,
        };
    }
    (sizes, count)
}

fn preflights(bench: &mut Bench, random: &mut Random, cases: u64) {
    let mut bytes = Vec::new();
    while bench.cases < cases {
        let stream = random.pick(&STREAMS);
        gen_streams::stream(random, stream, 14, &mut bytes);
        if random.once_in(8) {
            damage(random, &mut bytes);
        }
        let (sizes, count) = sizes(random);
        let size = if random.once_in(60) {
            random.number()
        } else {
            random.pick(&[4, 8])
        };
        let judged = Case::Preflight {
            stream,
            size,
            sizes: &sizes[..count],
            bytes: &bytes,
        };
        bench.judge(judged);
        exact_sizes(bench, stream, size, &bytes);
    }
}

/// The same stream with the smallest sizes that pass, and then with one of them smaller by one.
fn exact_sizes(bench: &mut Bench, stream: Stream, size: u64, bytes: &[u8]) {
    let mut exact = [0u64; 16];
    if size != 4 && size != 8 {
        return;
    }
    let mut walk = oracle::places(stream, bytes, size as u8);
    for _ in 0..24 {
        let Ok(Some((segment, offset, kind))) = walk.step() else {
            break;
        };
        let width = oracle::width(stream, kind, size);
        let needed = offset.saturating_add(width).min(LARGEST);
        exact[segment as usize] = exact[segment as usize].max(needed);
    }
    bench.judge(Case::Preflight {
        stream,
        size,
        sizes: &exact,
        bytes,
    });
    if let Some(largest) = exact.iter_mut().max().filter(|largest| **largest > 0) {
        *largest -= 1;
        bench.judge(Case::Preflight {
            stream,
            size,
            sizes: &exact,
            bytes,
        });
    }
}

fn tries(bench: &mut Bench, random: &mut Random, cases: u64) {
    let mut bytes = Vec::new();
    while bench.cases < cases {
        gen_tries::trie(random, &mut bytes);
        if random.once_in(3) {
            damage(random, &mut bytes);
        }
        bench.judge(Case::Trie {
            limit: u64::MAX,
            room: 64,
            bytes: &bytes,
        });
    }
}

/// Without the judge: the exports do not depend on the limits, and the second reading knows their
/// number, the visits and the ending.
fn joined(bench: &mut Bench, random: &mut Random, cases: u64) {
    let mut bytes = Vec::new();
    while bench.cases < cases {
        gen_tries::trie(random, &mut bytes);
        if random.once_in(4) {
            damage(random, &mut bytes);
        }
        let (room, most) = (random.below(24), 1 + random.below(6));
        let mut other = random.clone();
        bench.join(&bytes, room, || other.below(most + 1) as u64);
    }
}

/// The same exports at any limits, with a name buffer that may be too short.
fn limits(bench: &mut Bench, random: &mut Random, cases: u64) {
    let mut bytes = Vec::new();
    while bench.cases < cases {
        gen_tries::trie(random, &mut bytes);
        if random.once_in(4) {
            damage(random, &mut bytes);
        }
        let (room, most) = (random.below(24), 1 + random.below(6));
        let mut other = random.clone();
        bench.judge_limits(&bytes, room, || other.below(most + 1) as u64);
    }
}

/// Nodes one under the other, around the most that may be open, with and without room for the names.
fn deep_tries(bench: &mut Bench, _: &mut Random, _: u64) {
    let mut bytes = Vec::new();
    for nodes in [1, 2, 255, 256, 257, 258] {
        for (edge, exports) in [
            (&b""[..], false),
            (b"x", false),
            (b"name", false),
            (b"x", true),
        ] {
            gen_tries::chain(nodes, exports, edge, &mut bytes);
            let whole = edge.len() * (nodes - 1);
            for room in [whole, whole.saturating_sub(1)] {
                for limit in [100, 256, 257, u64::MAX] {
                    bench.judge(Case::Trie {
                        limit,
                        room,
                        bytes: &bytes,
                    });
                }
            }
        }
        bench.judge(Case::Trie {
            limit: 1,
            room: 2000,
            bytes: &bytes,
        });
    }
}

fn fixups(bench: &mut Bench, random: &mut Random, cases: u64, damaged: bool) {
    let mut made = Fixups::default();
    while bench.cases < cases {
        made.make(random);
        if damaged {
            damage(random, &mut made.bytes);
            if random.once_in(4) {
                damage(random, &mut made.contents);
            }
        }
        let calls = calls(random);
        bench.judge_fixups(calls, made.base, &made.bytes, &made.contents);
    }
}

/// The short inputs of one run, from an index to another, every so many.
pub fn strings(bench: &mut Bench, run: usize, from: u64, to: u64, stride: u64) {
    let mut bytes = Vec::new();
    let mut index = from;
    while index < to {
        exhaustive::one(bench, run, index, &mut bytes);
        index += stride;
    }
}
