//! Each refusal by one sample, and the refusals by name, number and words.

mod common;

use brinetrellis::preflight::{self, Verdict};
use brinetrellis::{Binds, Error, Exports, Fixups, Imports, NoRefusal, Rebases, Refusal, Segments};
use common::{chain, one_segment, u32s, with_imports, S1, S4};
use std::collections::{BTreeMap, BTreeSet};

/// The first refusal of a walk.
fn refused<T>(mut walk: impl Iterator<Item = Result<T, Error>>) -> Option<Refusal> {
    walk.find_map(Result::err).and_then(Error::refusal)
}

/// What refuses a start.
fn unstarted<T>(start: Result<T, Error>) -> Option<Refusal> {
    start.err().and_then(Error::refusal)
}

/// What refuses a rebase stream of pointer size 8.
fn rebase(stream: &[u8]) -> Option<Refusal> {
    refused(Rebases::new(stream, 8).expect("a start"))
}

/// What refuses a plain bind stream of pointer size 8.
fn bind(stream: &[u8]) -> Option<Refusal> {
    refused(Binds::plain(stream, 8).expect("a start"))
}

/// What refuses the fixups of the one segment, which has eight bytes.
fn pages(fixups: &[u8]) -> Option<Refusal> {
    let mut segments = Segments::new(fixups).expect("a start");
    let segment = segments.next()?.expect("a segment");
    refused(Fixups::new(fixups, &segment, 0, &[0; 8]).expect("a start"))
}

/// What refuses a trie, with room for so many bytes of a name.
fn trie(bytes: &[u8], room: usize) -> Option<Refusal> {
    refused(Exports::with_room(bytes, room).expect("a start"))
}

/// What refuses a rebase stream of pointer size 8 before its flight.
fn flight(stream: &[u8], sizes: &[u64]) -> Option<Refusal> {
    match preflight::rebases(stream, 8, sizes) {
        Verdict::Fault { refusal, .. } => Some(refusal),
        Verdict::Passes { .. } | Verdict::Unknown { .. } => None,
    }
}

/// A walk over S1 that has read four bytes, and is then lent three.
fn shortened() -> Option<Refusal> {
    let mut walk = Rebases::new(S1, 8).expect("a start");
    walk.next();
    refused(Rebases::from_state(&S1[..3], walk.into_state()))
}

#[test]
fn each_refusal_has_a_sample() {
    let unversioned = u32s(&[1, 0, 0, 0, 0, 0, 0]);
    let samples = [
        (1, unstarted(Rebases::new(S1, 7))),
        (2, rebase(&[0x90])),
        (3, rebase(&[0x20, 0x80])),
        (4, bind(&[0x20, 0x80, 0x80, 0x80, 0x80, 0x08])), // 2^31
        (5, rebase(S4)),
        (6, rebase(&[0x20, 0x00, 0x51])),
        (7, bind(&[0x70, 0x00, 0x51, 0x90])),
        (8, bind(&[0x70, 0x00, 0x51, 0x11, 0x90])),
        (9, unstarted(Segments::new(&[]))),
        (10, unstarted(Segments::new(&unversioned))),
        (11, unstarted(Imports::new(&u32s(&[0, 0, 0, 0, 0, 1, 1])))),
        (12, pages(&one_segment(2, 1, &[]))),
        (13, pages(&one_segment(2, 1, &[1]))), // the bytes 1 to 9 of eight
        (
            14,
            refused(Imports::new(&with_imports(1, 1, &u32s(&[0]), b"a")).expect("a start")),
        ),
        (15, trie(&[], 9)),
        (16, trie(b"\x00\x01a\x00\x00", 9)), // an edge to the root
        (17, trie(&chain(257), 9)),
        (18, trie(common::SHARED, 1)),
        (19, shortened()),
        (20, flight(S1, &[0, 0, 39])),
        (21, flight(S1, &[0; 17])),
    ];
    for (number, sample) in samples {
        assert_eq!(sample.map(Refusal::number), Some(number));
    }
    let sampled = BTreeSet::from(samples.map(|(number, _)| number));
    let all = Refusal::ALL.iter().map(|refusal| refusal.number());
    assert_eq!(sampled, all.collect(), "each has a sample");
}

#[test]
fn a_refusal_has_one_number() {
    let numbers: BTreeSet<u64> = Refusal::ALL.iter().map(|r| r.number()).collect();
    assert_eq!(numbers.len(), Refusal::ALL.len());
    for refusal in Refusal::ALL {
        assert_eq!(Refusal::try_from(refusal.number()), Ok(*refusal));
        // It can be told from the other answers.
        assert!((1..=255).contains(&refusal.number()));
    }
    for number in [0, 99, 255, 256, 257, 256 + 19, u64::MAX] {
        assert_eq!(Refusal::try_from(number), Err(NoRefusal(number)));
    }
}

/// The items of docs/REFUSALS.md: `- NUMBER `NAME`: WORDS. Exactly: SENTENCE.`, by number.
fn documented() -> BTreeMap<u64, [String; 3]> {
    let page = include_str!("../../docs/REFUSALS.md").replace("\n  ", " ");
    let items = page.lines().filter_map(|line| {
        let (number, rest) = line.strip_prefix("- ")?.split_once(" `")?;
        let (name, rest) = rest.split_once("`: ")?;
        let (words, sentence) = rest.strip_suffix('.')?.split_once(". Exactly: ")?;
        let texts = [name, words, sentence].map(String::from);
        Some((number.parse().ok()?, texts))
    });
    items.collect()
}

#[test]
fn names_words_and_sentences_are_the_documented_ones() {
    let told = Refusal::ALL.iter().map(|refusal| {
        let name = format!("{refusal:?}");
        let texts = [&name, refusal.words(), refusal.given_when()].map(String::from);
        (refusal.number(), texts)
    });
    assert_eq!(documented(), told.collect());
}

#[test]
fn what_is_displayed_is_plain_words() {
    assert_eq!(
        Refusal::NoLibrary.to_string(),
        "bind before any library was chosen"
    );
    let error = Error::from(Refusal::NoLibrary);
    assert_eq!(error.to_string(), Refusal::NoLibrary.to_string());
    let words: BTreeSet<&str> = Refusal::ALL.iter().map(|r| r.words()).collect();
    assert_eq!(words.len(), Refusal::ALL.len(), "each has its own");
}

#[test]
fn other_errors_are_told_from_refusals() {
    let what = "answer";
    let unknown = Error::Unknown { what, number: 99 };
    let text = "answer that this crate does not know: 99";
    assert_eq!(
        (unknown.refusal(), unknown.to_string().as_str()),
        (None, text)
    );
    let budget = Error::Budget { nodes: 7 };
    let text = "no export found within 7 trie nodes";
    assert_eq!(
        (budget.refusal(), budget.to_string().as_str()),
        (None, text)
    );
}
