//! How often each refusal came.

use crate::case::Case;
use brinetrellis::Refusal;
use oracle::{Answers, Stream, ITEM};

/// For each refusal number, which is below 32, how often it was answered.
#[derive(Debug, Default, Clone, PartialEq, Eq)]
pub struct Tally([u64; 32]);

/// The numbers that a case can be refused with: 19 needs a state.
fn given() -> impl Iterator<Item = usize> {
    let all = Refusal::ALL.iter().map(|refusal| refusal.number());
    all.filter(|number| *number != 19)
        .map(|number| number as usize)
}

impl Tally {
    fn count(&mut self, number: u64) {
        if let Some(times) = self.0.get_mut(number as usize) {
            *times += 1;
        }
    }

    /// Counts the refusals among the answers of a case.
    pub fn add(&mut self, case: &Case<'_>, answers: &Answers) {
        let words = &answers.words;
        match *case {
            Case::Preflight { .. } => self.count(words[0]),
            // The ending, and behind it the visits.
            Case::Trie { .. } => self.count(words[words.len() - 2]),
            Case::Stream {
                stream: Stream::Rebase,
                ..
            } => self.walk(words, 3),
            Case::Stream { .. } => self.walk(words, 8),
            Case::Segments { .. } => self.begun(words, 8),
            Case::Pages { .. } | Case::Imports { .. } => self.begun(words, 5),
        }
    }

    /// A walk whose start was noted.
    fn begun(&mut self, words: &[u64], item: usize) {
        self.count(words[0]);
        self.walk(&words[1..], item);
    }

    /// A walk whose items have so many words.
    fn walk(&mut self, words: &[u64], item: usize) {
        let mut at = 0;
        while at < words.len() {
            if words[at] == ITEM {
                at += item;
            } else {
                self.count(words[at]);
            }
            at += 1;
        }
    }

    pub fn join(&mut self, other: &Tally) {
        for (sum, times) in self.0.iter_mut().zip(&other.0) {
            *sum += times;
        }
    }

    /// The first refusal that a case can be refused with and that never came.
    pub fn absent(&self) -> Option<usize> {
        given().find(|number| self.0[*number] == 0)
    }

    pub fn text(&self) -> String {
        let texts = given().map(|number| format!("{number}: {}", self.0[number]));
        texts.collect::<Vec<_>>().join(", ")
    }
}
