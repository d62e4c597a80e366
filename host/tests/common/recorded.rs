//! Recorded answers of the Rust crate, as the program `dump` has to print them.
//!
//! Left out are the cases that cannot be put to the program: a preflight without any size, and a
//! trie with a name that was too long for the buffer of its record, as the program lends a longer
//! one. The limits of nodes are left out, too, since no listing depends on them. A walk that was not
//! called on to its end is put with `--max`, one less than it is known to list.

use super::{lines, program};
use brinetrellis::Segments;
use std::fmt::Display;

#[path = "../../compare/src/hex.rs"]
mod hex;

const RECORD: &str = include_str!("../../recorded/answers.txt");

/// How many documented cases stand first.
const DOCUMENTED: usize = 10;

/// The most cases of a kind that are put.
const EACH: usize = 18;

/// The answers of a walk that are no refusals.
const ITEM: u64 = 0;
const END: u64 = 256;

const FAULTY_CHAINS: u64 = 9;
const NAME_TOO_LONG: u64 = 18;

/// Stands for the place of a refusal, where the record does not tell it.
const ANYWHERE: char = '*';

/// A recorded case as it is put to the program, and what is to be printed.
pub struct Question {
    line: &'static str,
    command: String,
    files: Vec<Vec<u8>>,
    expected: String,
}

/// The documented cases.
pub fn documented() -> Vec<Question> {
    let first = RECORD.lines().take(DOCUMENTED);
    let put = first.map(question).collect::<Option<_>>();
    put.expect("cases that can be put")
}

/// Of the cases whose lines begin so some, spread evenly over the record: of those that can be put every
/// second, or every third, and so on, so that they are no more than `EACH`.
pub fn spread(beginning: &str) -> Vec<Question> {
    let lines = RECORD.lines().filter(|line| line.starts_with(beginning));
    let all: Vec<Question> = lines.filter_map(question).collect();
    assert!(all.len() >= EACH, "{beginning}: {} cases", all.len());
    let step = all.len().div_ceil(EACH);
    all.into_iter().step_by(step).collect()
}

impl Question {
    /// The program prints what is expected.
    pub fn ask(&self) {
        let files: Vec<&[u8]> = self.files.iter().map(Vec::as_slice).collect();
        let printed = program::listed(&self.command, &files);
        let closing = self.expected.lines().last().expect("a closing line");
        if closing.contains(&place(ANYWHERE)) {
            assert_eq!(anywhere(&printed), self.expected, "{}", self.line);
        } else {
            assert_eq!(printed, self.expected, "{}", self.line);
        }
    }
}

/// How a closing line tells a place.
fn place(place: impl Display) -> String {
    format!("  place {place}  ")
}

/// A listing without the number of the place that its closing line tells.
fn anywhere(printed: &str) -> String {
    let told = printed
        .rsplit_once("  place ")
        .and_then(|(before, behind)| {
            let (number, behind) = behind.split_once("  ")?;
            number.parse::<u64>().ok()?;
            Some(format!("{before}{}{behind}", place(ANYWHERE)))
        });
    told.unwrap_or_else(|| printed.to_string())
}

/// The case of a line; none where it cannot be put to the program.
fn question(line: &'static str) -> Option<Question> {
    let [case, words, names] = line.split(" | ").collect::<Vec<_>>()[..] else {
        panic!("no case: {line}");
    };
    let words = hex::words(words).expect("words");
    let (words, names) = (&words[..], &bytes(names)[..]);
    let told = Told { words, names };
    let case: Vec<&str> = case.split(' ').collect();
    let (command, expected) = match case[..] {
        ["preflight", _, _, "-", _] => return None,
        ["preflight", kind, size, sizes, _] => preflight(kind, size, sizes, words),
        ["trie", ..] if words.iter().rev().nth(1) == Some(&NAME_TOO_LONG) => return None,
        ["trie", ..] => trie(told),
        ["segments", _, fixups] => segments(told, &bytes(fixups)),
        ["imports", _, fixups] => imports(told, &bytes(fixups)),
        ["pages", nth, base, _, fixups, _] => pages(told, nth, base, &bytes(fixups)),
        [kind, size, _, stream] => walk_of(told, kind, size, &bytes(stream)),
        _ => panic!("no case: {line}"),
    };
    // The bytes stand last: one text, or two where those of a segment stand behind its chained fixups.
    let files = if case[0] == "pages" {
        &case[4..]
    } else {
        &case[case.len() - 1..]
    };
    Some(Question {
        line,
        command,
        files: files.iter().map(|text| bytes(text)).collect(),
        expected,
    })
}

fn bytes(text: &str) -> Vec<u8> {
    hex::bytes(text).expect("bytes")
}

/// The command's word for a kind of stream.
fn named(kind: &str) -> &str {
    if kind == "plain" {
        "bind"
    } else {
        kind
    }
}

/// The answer of a preflight and the words of its verdict.
fn preflight(kind: &str, size: &str, sizes: &str, words: &[u64]) -> (String, String) {
    let mut command = format!("preflight {} {size} FILE", named(kind));
    for size in hex::words(sizes).expect("sizes") {
        command += &format!(" {size}");
    }
    let expected = match *words {
        [0, operations, 0] => format!("pass  operations {operations}\n"),
        [number, position, index] => lines::refused(number, position, index),
        _ => panic!("no verdict: {words:?}"),
    };
    (command, expected)
}

/// A stream that ends by Done before its bytes do tells how many are read.
fn walk_of(mut told: Told<'_>, kind: &str, size: &str, stream: &[u8]) -> (String, String) {
    let walk = if kind == "rebase" {
        told.walk(3, |_, item, _| lines::rebase(item))
    } else {
        told.walk(8, |_, item, told| lines::bind(item, told.name(item[5])))
    };
    let (listed, ending) = (walk.listed(), walk.ending);
    let (command, text) = walk.put(format!("{} {size} FILE", named(kind)), ANYWHERE, listed);
    match up_to_done(kind, stream) {
        Some(read) if ending == Some(END) && read < stream.len() => {
            let end = format!("end  items {listed}\n");
            let items = text.strip_suffix(&end).expect("an end");
            let done = lines::done(listed, read, stream.len());
            (command, items.to_string() + &done)
        }
        _ => (command, text),
    }
}

/// How many bytes a stream has up to its first Done, which is one of them. A lazy one is not ended by it.
fn up_to_done(kind: &str, stream: &[u8]) -> Option<usize> {
    let mut at = 0;
    while kind != "lazy" && at < stream.len() {
        let operation = stream[at] >> 4;
        at += 1;
        // How many operands there are, each up to the first byte that is below 0x80, or that is 0.
        let (operands, end) = match (kind, operation) {
            (_, 0) => return Some(at),
            ("rebase", 2 | 3 | 6 | 7) => (1, 0x7f),
            ("rebase", 8) => (2, 0x7f),
            ("rebase", _) => (0, 0),
            (_, 4) => (1, 0),
            (_, 2 | 6 | 7 | 8 | 10) => (1, 0x7f),
            (_, 12) => (2, 0x7f),
            _ => (0, 0),
        };
        for _ in 0..operands {
            at += stream[at..].iter().position(|byte| *byte <= end)? + 1;
        }
    }
    None
}

fn trie(mut told: Told<'_>) -> (String, String) {
    let walk = told.walk(8, |_, item, told| {
        let (name, import) = (told.name(item[0]), told.name(item[7]));
        lines::export(item, name, import)
    });
    let listed = walk.listed();
    walk.put("exports FILE".to_string(), ANYWHERE, listed)
}

/// A record that is refused has a line, too, and the walk goes on behind it.
fn segments(mut told: Told<'_>, fixups: &[u8]) -> (String, String) {
    let mut command = "segments FILE".to_string();
    if let Some(number) = told.refused_start() {
        return (command, lines::refused(number, 0, 0));
    }
    // The lines, and the index of each that is refused.
    let mut rows: Vec<(String, Option<u64>)> = Vec::new();
    let ending = loop {
        let walk = told.walk(8, |_, item, _| lines::segment(item));
        rows.extend(walk.lines.into_iter().map(|line| (line, None)));
        if walk.ending != Some(FAULTY_CHAINS) {
            break walk.ending;
        }
        let index = with_record(fixups, rows.len()).expect("a segment with a record");
        rows.push((lines::refused_segment(index), Some(index)));
    };
    let mut word = "end";
    if ending.is_none() {
        rows.pop();
        command += &format!(" --max {}", rows.len());
        word = "cut";
    }
    let refused: Vec<u64> = rows.iter().filter_map(|(_, index)| *index).collect();
    let closing = match refused[..] {
        [] => format!("{word}  items {}\n", rows.len()),
        [first, ..] => {
            let starts = u32_at(fixups, 4) as u64;
            lines::refused_records(starts, first, refused.len() as u64)
        }
    };
    let items: String = rows.into_iter().map(|(line, _)| line).collect();
    (command, items + &closing)
}

/// The index of the segment that has a record, behind so many others that have one: behind a count, the
/// starts tell offsets, and 0 where there is none.
fn with_record(fixups: &[u8], others: usize) -> Option<u64> {
    let starts = u32_at(fixups, 4);
    let offset = |index| u32_at(fixups, starts + 4 + 4 * index);
    let mut indexes = (0..u32_at(fixups, starts)).filter(|index| offset(*index) != 0);
    indexes.nth(others).map(|index| index as u64)
}

/// An import is refused at the place of its record, of 4, 8 or 16 bytes by the format.
fn imports(mut told: Told<'_>, fixups: &[u8]) -> (String, String) {
    let command = "imports FILE".to_string();
    if let Some(number) = told.refused_start() {
        return (command, lines::refused(number, 0, 0));
    }
    let walk = told.walk(5, |index, item, told| {
        lines::import(index, item, told.name(item[4]))
    });
    let size = match u32_at(fixups, 20) {
        1 => 4,
        2 => 8,
        _ => 16,
    };
    let place = u32_at(fixups, 8) + size * walk.lines.len();
    let listed = walk.listed();
    walk.put(command, place, listed)
}

/// The segment is told as the nth that is listed, and the program is given its index.
fn pages(mut told: Told<'_>, nth: &str, base: &str, fixups: &[u8]) -> (String, String) {
    let mut segments = Segments::new(fixups).expect("a start").flatten();
    let segment = segments.nth(nth.parse().expect("a number"));
    let index = segment.expect("a segment").index;
    let command = format!("fixups FILE {index} FILE {base}");
    if let Some(number) = told.refused_start() {
        return (command, lines::refused(number, 0, 0));
    }
    let walk = told.walk(5, |_, item, _| lines::fixup(item));
    let listed = walk.listed();
    walk.put(command, ANYWHERE, listed)
}

fn u32_at(bytes: &[u8], at: usize) -> usize {
    let field = bytes[at..at + 4].try_into().expect("four bytes");
    u32::from_le_bytes(field) as usize
}

/// Words and names of a record that are still to be read.
struct Told<'a> {
    words: &'a [u64],
    names: &'a [u8],
}

impl<'a> Told<'a> {
    fn words(&mut self, count: usize) -> &'a [u64] {
        let (words, rest) = self.words.split_at(count);
        self.words = rest;
        words
    }

    fn name(&mut self, length: u64) -> &'a [u8] {
        let (name, rest) = self.names.split_at(length as usize);
        self.names = rest;
        name
    }

    /// The answer of a start, where it is a refusal.
    fn refused_start(&mut self) -> Option<u64> {
        Some(self.words(1)[0]).filter(|answer| *answer != ITEM)
    }

    /// A walk whose items have so many words.
    fn walk(
        &mut self,
        count: usize,
        line: impl Fn(usize, &[u64], &mut Told<'a>) -> String,
    ) -> Walk {
        let mut lines = Vec::new();
        while !self.words.is_empty() {
            let answer = self.words(1)[0];
            if answer != ITEM {
                let ending = Some(answer);
                return Walk { lines, ending };
            }
            let item = self.words(count);
            lines.push(line(lines.len(), item, self));
        }
        let ending = None;
        Walk { lines, ending }
    }
}

/// The lines of the items up to the first end or refusal, and which of them it was; none where the
/// walk was not called so far.
struct Walk {
    lines: Vec<String>,
    ending: Option<u64>,
}

impl Walk {
    fn listed(&self) -> u64 {
        self.lines.len() as u64
    }

    /// The command and what it prints; a refusal has this place and index.
    fn put(mut self, command: String, place: impl Display, index: u64) -> (String, String) {
        let listed = self.listed();
        match self.ending {
            Some(END) => {
                self.lines.push(format!("end  items {listed}\n"));
                (command, self.lines.concat())
            }
            Some(number) => {
                self.lines.push(lines::refused(number, place, index));
                (command, self.lines.concat())
            }
            None => {
                self.lines.pop();
                let listed = self.listed();
                self.lines.push(format!("cut  items {listed}\n"));
                (format!("{command} --max {listed}"), self.lines.concat())
            }
        }
    }
}
