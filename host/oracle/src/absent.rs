//! The judge's functions where its sources are missing: they answer nothing.

use crate::{Answers, Bounds, Stream};
use core::marker::PhantomData;

pub fn stream(_: Stream, _: &[u8], _: u8, _: Bounds, answers: &mut Answers) {
    answers.clear();
}

pub fn trie(_: &[u8], answers: &mut Answers) {
    answers.clear();
}

pub fn segments(_: &[u8], _: Bounds, answers: &mut Answers) {
    answers.clear();
}

pub fn pages(_: &[u8], _: usize, _: u64, _: &[u8], _: Bounds, answers: &mut Answers) {
    answers.clear();
}

pub fn imports(_: &[u8], _: Bounds, answers: &mut Answers) {
    answers.clear();
}

/// What an operation means to a preflight.
#[derive(Debug, Clone, Copy, PartialEq, Eq)]
pub enum Operation {
    Done,
    Places(u64),
    Other,
}

pub fn operation(_: Stream, _: &[u8]) -> Result<Operation, u64> {
    Ok(Operation::Done)
}

/// The places of a stream: none.
pub struct Places<'data>(PhantomData<&'data [u8]>);

pub fn places(_: Stream, _: &[u8], _: u8) -> Places<'_> {
    Places(PhantomData)
}

impl Places<'_> {
    pub fn step(&mut self) -> Result<Option<(u64, u64, u8)>, u64> {
        Ok(None)
    }
}

pub fn width(_: Stream, _: u8, pointer_size: u64) -> u64 {
    pointer_size
}

pub fn preflight(_: Stream, _: &[u8], _: u64, _: &[u64]) -> [u64; 3] {
    [0; 3]
}

/// Nothing is timed.
pub mod sums {
    pub fn rebase(_: &[u8], _: u8) -> u64 {
        0
    }

    pub fn bind(_: &[u8], _: u8) -> u64 {
        0
    }

    pub fn trie(_: &[u8]) -> u64 {
        0
    }

    pub fn pages(_: &[u8], _: &[u8], _: u64) -> u64 {
        0
    }

    pub fn segments(_: &[u8]) -> u64 {
        0
    }

    pub fn imports(_: &[u8]) -> u64 {
        0
    }

    pub fn visit_rebases(_: &[u8], _: u8, _: &[u64]) -> u64 {
        0
    }

    pub fn visit_binds(_: &[u8], _: u8, _: &[u64]) -> u64 {
        0
    }
}
