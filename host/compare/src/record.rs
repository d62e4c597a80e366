//! Recorded cases: the judge's answers as text, so that the reader can be compared without the
//! judge.

use crate::boundaries;
use crate::case::{Case, Parts};
use crate::damage::damage;
use crate::gen_fixups::Fixups;
use crate::gen_streams::{self, STREAMS};
use crate::gen_tries;
use crate::hex;
use crate::judge::{ask, records, Bench};
use crate::ours;
use crate::random::Random;
use crate::samples;
use crate::sections::sizes;
use crate::tally::Tally;
use oracle::Answers;
use std::fs;

/// A case whose line is longer is not recorded.
const LONGEST: usize = 2700;
const CALLS: usize = 20;
const SEED: u64 = 1;

/// The lines of a record, and which refusals are among them.
#[derive(Default)]
struct Lines {
    text: String,
    count: usize,
    refusals: Tally,
    answers: Answers,
}

impl Lines {
    fn add(&mut self, case: Case<'_>) {
        if !ask(&case, &mut self.answers) {
            return;
        }
        let (words, names) = (&self.answers.words, &self.answers.names);
        let line = format!(
            "{} | {} | {}\n",
            case.text(),
            hex::list(words),
            hex::digits(names)
        );
        if line.len() > LONGEST {
            return;
        }
        self.refusals.add(&case, &self.answers);
        self.text.push_str(&line);
        self.count += 1;
    }

    fn samples(&mut self) {
        for (stream, bytes) in samples::streams() {
            self.add(Case::Stream {
                stream,
                size: 8,
                calls: CALLS,
                bytes,
            });
        }
        for (sizes, bytes) in samples::preflights() {
            let stream = oracle::Stream::Rebase;
            self.add(Case::Preflight {
                stream,
                size: 8,
                sizes: &sizes,
                bytes: &bytes,
            });
        }
    }

    fn streams(&mut self, random: &mut Random, bytes: &mut Vec<u8>) {
        for stream in STREAMS {
            gen_streams::stream(random, stream, 8, bytes);
            if random.once_in(3) {
                damage(random, bytes);
            }
            let (size, (sizes, count)) = (random.pick(&[4, 8]), sizes(random));
            self.add(Case::Stream {
                stream,
                size,
                calls: CALLS,
                bytes,
            });
            if random.once_in(3) {
                let size = if random.once_in(30) {
                    random.number()
                } else {
                    size.into()
                };
                self.add(Case::Preflight {
                    stream,
                    size,
                    sizes: &sizes[..count],
                    bytes,
                });
            }
        }
    }

    fn tries(&mut self, random: &mut Random, bytes: &mut Vec<u8>) {
        gen_tries::trie(random, bytes);
        if random.once_in(3) {
            damage(random, bytes);
        }
        let (limit, room) = (
            random.pick(&[1, 2, 3, u64::MAX]),
            random.pick(&[4, 16, 64, 64]),
        );
        self.add(Case::Trie { limit, room, bytes });
    }

    fn fixups(&mut self, random: &mut Random, made: &mut Fixups) {
        made.make(random);
        if random.once_in(2) {
            damage(random, &mut made.bytes);
        }
        let (calls, base, fixups) = (CALLS, made.base, &made.bytes[..]);
        self.add(Case::Imports { calls, fixups });
        self.add(Case::Segments { calls, fixups });
        for nth in 0..records(&self.answers).count().min(2) {
            self.add(Case::Pages {
                nth,
                base,
                calls,
                fixups,
                contents: &made.contents,
            });
        }
    }
}

/// Writes the record; an error says why not.
pub fn record(file: &str) -> Result<String, String> {
    if !oracle::LIVE {
        return Err(format!(
            "no judge to record: {} is missing",
            oracle::MISSING
        ));
    }
    let (mut lines, mut bytes, mut made) = (Lines::default(), Vec::new(), Fixups::default());
    let mut random = Random::new(SEED, 0, 0);
    lines.samples();
    for turn in 0..640 {
        lines.streams(&mut random, &mut bytes);
        lines.fixups(&mut random, &mut made);
        if turn % 2 == 0 {
            lines.tries(&mut random, &mut bytes);
        }
    }
    let lasts = [0, 1, 2, 0x3f, 0x40, 0x7e, 0x7f, 0x80, 0xff];
    boundaries::numbers(lasts.into_iter(), |case| lines.add(case));
    boundaries::ordinals(|case| lines.add(case));
    boundaries::widths([0, 1, 2, 3, 4, 15].into_iter(), |case| lines.add(case));
    boundaries::bare_headers(|case| lines.add(case));
    boundaries::formats(|case| lines.add(case));
    boundaries::pointers(40_000, &[1], |case| lines.add(case));
    boundaries::libraries(|case| lines.add(case));
    for nodes in [256, 257] {
        gen_tries::chain(nodes, false, b"", &mut bytes);
        lines.add(Case::Trie {
            limit: 100,
            room: 0,
            bytes: &bytes,
        });
    }
    if let Some(absent) = lines.refusals.absent() {
        return Err(format!("no case is refused with {absent}"));
    }
    fs::write(file, &lines.text).map_err(|error| format!("{file}: {error}"))?;
    let (count, length, refusals) = (lines.count, lines.text.len(), lines.refusals.text());
    Ok(format!(
        "{count} cases, {length} bytes; refusals {refusals}"
    ))
}

/// Runs the reader on each recorded case; whether nothing differed.
pub fn replay(file: &str) -> Result<bool, String> {
    let text = fs::read_to_string(file).map_err(|error| format!("{file}: {error}"))?;
    let mut bench = Bench::default();
    for (number, line) in text.lines().enumerate() {
        let faulty = || format!("{file}: line {} is no case", number + 1);
        let [case, words, names] = line.split(" | ").collect::<Vec<_>>()[..] else {
            return Err(faulty());
        };
        let mut parts = Parts::default();
        let case = parts.read(case).ok_or_else(faulty)?;
        bench.expected.words = hex::words(words).ok_or_else(faulty)?;
        bench.expected.names = hex::bytes(names).ok_or_else(faulty)?;
        bench.cases += 1;
        let breach = ours::run(&case, &mut bench.desk, &mut bench.answered);
        bench.settle(breach, || case.text());
    }
    for difference in &bench.differences {
        println!("{difference}");
    }
    println!(
        "{} recorded cases; {} differences",
        bench.cases, bench.differing
    );
    Ok(bench.differing == 0)
}
