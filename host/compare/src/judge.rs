//! Puts a case to the judge and to the reader, and keeps what differs.

use crate::case::{bounds, Case};
use crate::hex;
use crate::ours::{self, Breach};
use crate::ours_trie::Desk;
use crate::preflight;
use crate::tally::Tally;
use crate::three::{self, Three};
use crate::trie_reading::{self, Limits, CUT};
use oracle::Answers;

/// The most differences that are kept and printed.
pub const KEPT: usize = 20;
/// The most nodes of a trie that are visited.
pub const VISITS: u64 = 600;
/// The most nodes that the reader has open at once.
pub const OPEN: usize = 256;

/// Where cases are judged: room for answers, and what came of it.
#[derive(Debug, Default)]
pub struct Bench {
    pub expected: Answers,
    pub answered: Answers,
    pub desk: Box<Desk>,
    pub cases: u64,
    /// Too large to be judged in whole.
    pub skipped: u64,
    pub refusals: Tally,
    pub differing: u64,
    pub differences: Vec<String>,
}

/// What the judge says of a case, in `expected`; false if it is too large for that.
pub fn ask(case: &Case<'_>, expected: &mut Answers) -> bool {
    match *case {
        Case::Stream {
            stream,
            size,
            calls,
            bytes,
        } => {
            oracle::stream(stream, bytes, size, bounds(calls), expected);
        }
        Case::Trie { room, bytes, .. } => return ask_trie(bytes, room, expected),
        Case::Segments { calls, fixups } => oracle::segments(fixups, bounds(calls), expected),
        Case::Pages {
            nth,
            base,
            calls,
            fixups,
            contents,
        } => {
            oracle::pages(fixups, nth, base, contents, bounds(calls), expected);
        }
        Case::Imports { calls, fixups } => oracle::imports(fixups, bounds(calls), expected),
        Case::Preflight {
            stream,
            size,
            sizes,
            bytes,
        } => {
            return preflight::expected(stream, size, sizes, bytes, expected);
        }
    }
    true
}

/// The crate's exports; the number of visits and the reader's own refusals come from the second
/// reading, which has to agree with the crate on the ending otherwise.
fn ask_trie(bytes: &[u8], room: usize, expected: &mut Answers) -> bool {
    let whole = Limits {
        visits: VISITS,
        open: usize::MAX,
        room: usize::MAX,
    };
    if trie_reading::read(bytes, whole).ending == CUT {
        return false;
    }
    oracle::trie(bytes, expected);
    let reading = trie_reading::read(
        bytes,
        Limits {
            visits: VISITS,
            open: OPEN,
            room,
        },
    );
    if reading.ending == 17 || reading.ending == 18 {
        keep_exports(expected, reading.exports);
        expected.number(reading.ending);
    } else if expected.words.last() != Some(&reading.ending) {
        expected.number(CUT);
    }
    expected.number(reading.visits);
    true
}

/// Keeps the first exports, nine words each with the answer, and their names.
fn keep_exports(answers: &mut Answers, count: usize) {
    answers.words.truncate(9 * count);
    let lengths = answers
        .words
        .chunks_exact(9)
        .map(|export| (export[1] + export[8]) as usize);
    let names = lengths.sum();
    answers.names.truncate(names);
}

impl Bench {
    /// Judges a case; whether there was an answer and it was the same.
    pub fn judge(&mut self, case: Case<'_>) -> bool {
        self.cases += 1;
        let asked = ask(&case, &mut self.expected);
        if asked {
            self.refusals.add(&case, &self.expected);
        } else {
            self.skipped += 1;
        }
        if let Some(plain) = three::plain(&case) {
            return self.judge_three(&case, asked, plain) && asked;
        }
        if !asked {
            return false;
        }
        let breach = ours::run(&case, &mut self.desk, &mut self.answered);
        self.settle(breach, || case.text())
    }

    /// Compares the verdict of a plain Rust preflight with the two others.
    fn judge_three(&mut self, case: &Case<'_>, asked: bool, plain: [u64; 3]) -> bool {
        let breach = ours::run(case, &mut self.desk, &mut self.answered);
        let verdicts = Three {
            library: &self.answered.words,
            by_place: asked.then_some(&self.expected.words),
            plain,
        };
        let Some(reason) = breach.or_else(|| verdicts.odd()) else {
            return true;
        };
        let text = format!("{reason}: {}\n  {}", case.text(), verdicts.text());
        self.differ(|| text);
        false
    }

    /// The same for a trie whose calls have various limits.
    pub fn judge_limits(
        &mut self,
        bytes: &[u8],
        room: usize,
        mut limit: impl FnMut() -> u64,
    ) -> bool {
        self.cases += 1;
        let case = Case::Trie {
            limit: 1,
            room,
            bytes,
        };
        if !ask(&case, &mut self.expected) {
            self.skipped += 1;
            return false;
        }
        self.refusals.add(&case, &self.expected);
        let mut limits = Vec::new();
        self.answered.clear();
        let mut noted = || {
            limits.push(limit());
            limits[limits.len() - 1]
        };
        let breach = self.desk.walk(bytes, room, &mut noted, &mut self.answered);
        self.settle(breach, || format!("{} (limits {limits:?})", case.text()))
    }

    /// The exports of a trie at various limits are those at none, and the second reading knows their
    /// number, the visits and the ending.
    pub fn join(&mut self, bytes: &[u8], room: usize, limit: impl FnMut() -> u64) {
        self.cases += 1;
        let limits = Limits {
            visits: VISITS,
            open: OPEN,
            room,
        };
        let reading = trie_reading::read(bytes, limits);
        if reading.ending == CUT {
            self.skipped += 1;
            return;
        }
        let case = Case::Trie {
            limit: u64::MAX,
            room,
            bytes,
        };
        self.answered.clear();
        let apart = self.desk.walk(bytes, room, limit, &mut self.answered);
        let breach = ours::run(&case, &mut self.desk, &mut self.expected);
        if self.settle(apart.or(breach), || case.text()) {
            let words = &self.answered.words;
            if words.len() != 9 * reading.exports + 2
                || words[words.len() - 2..] != [reading.ending, reading.visits]
            {
                self.differ(|| format!("visits or ending are others: {}", case.text()));
            }
        }
    }

    /// Compares what was answered with what was expected.
    pub fn settle(&mut self, breach: Breach, text: impl FnOnce() -> String) -> bool {
        if breach.is_none() && self.expected == self.answered {
            return true;
        }
        let (expected, answered) = (shown(&self.expected), shown(&self.answered));
        let reason = breach.unwrap_or("the answers differ");
        self.differ(|| {
            format!(
                "{reason}: {}\n  expected {expected}\n  answered {answered}",
                text()
            )
        });
        false
    }

    /// Something that a section of its own found.
    pub fn differ(&mut self, text: impl FnOnce() -> String) {
        self.differing += 1;
        if self.differences.len() < KEPT {
            self.differences.push(text());
        }
    }

    /// Judges all walks over chained fixups, the pages of the first segments with them.
    pub fn judge_fixups(&mut self, calls: usize, base: u64, fixups: &[u8], contents: &[u8]) {
        self.judge(Case::Imports { calls, fixups });
        if !self.judge(Case::Segments { calls, fixups }) {
            return;
        }
        for nth in 0..records(&self.expected).count().min(3) {
            self.judge(Case::Pages {
                nth,
                base,
                calls,
                fixups,
                contents,
            });
        }
    }
}

/// The records that a walk over segments yielded, eight words each; refusals stand between them.
pub fn records(answers: &Answers) -> impl Iterator<Item = &[u64]> {
    let mut rest = answers.words.get(1..).unwrap_or(&[]);
    std::iter::from_fn(move || {
        let item = rest.iter().position(|word| *word == 0)?;
        let (record, behind) = rest[item + 1..].split_at(8);
        rest = behind;
        Some(record)
    })
}

/// Answers as text, cut where they are long.
fn shown(answers: &Answers) -> String {
    let kept = &answers.words[..answers.words.len().min(60)];
    let dots = if kept.len() < answers.words.len() {
        ",..."
    } else {
        ""
    };
    format!(
        "{}{dots} names {}",
        hex::list(kept),
        hex::digits(&answers.names)
    )
}
