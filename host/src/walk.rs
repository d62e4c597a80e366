//! What every walk keeps: its state, and whether an error has stopped it.

use crate::answer::{self, Answer};
use crate::Error;

/// A state of so many bytes.
#[derive(Clone, Debug)]
pub(crate) struct Walk<const STATE: usize> {
    state: [u8; STATE],
    stopped: bool,
}

impl<const STATE: usize> Walk<STATE> {
    /// The walk whose state a start writes.
    pub(crate) fn start(start: impl FnOnce(&mut [u8]) -> u64) -> Result<Self, Error> {
        let mut state = [0; STATE];
        let number = start(&mut state);
        match Answer::of(number)? {
            Answer::Item => Ok(Walk::from_state(state)),
            Answer::End | Answer::More => Err(Error::unknown("answer of a start", number)),
        }
    }

    /// A walk that goes on from a state.
    pub(crate) fn from_state(state: [u8; STATE]) -> Self {
        let stopped = false;
        Walk { state, stopped }
    }

    pub(crate) fn into_state(self) -> [u8; STATE] {
        self.state
    }

    /// One call on the state; none where an error has stopped the walk.
    pub(crate) fn call(&mut self, step: impl FnOnce(&mut [u8]) -> u64) -> Result<Answer, Error> {
        if self.stopped {
            return Ok(Answer::End);
        }
        let answer = Answer::of(step(&mut self.state));
        self.stopped = answer.is_err();
        answer
    }

    /// One call of a walk over items of so many bytes, as an iterator answers it.
    pub(crate) fn next<T, const ITEM: usize>(
        &mut self,
        step: impl FnOnce(&mut [u8], &mut [u8]) -> u64,
        read: impl FnOnce(&[u8; ITEM]) -> Result<T, Error>,
    ) -> Option<Result<T, Error>> {
        let mut item = [0; ITEM];
        let answer = match self.call(|state| step(state, &mut item)) {
            Ok(Answer::Item) => read(&item),
            Ok(Answer::End) => return None,
            Ok(Answer::More) => Err(Error::unknown("answer of a step", answer::MORE)),
            Err(error) => Err(error),
        };
        self.stopped = answer.is_err();
        Some(answer)
    }

    /// The walk has come to an error.
    pub(crate) fn stop(&mut self) {
        self.stopped = true;
    }

    /// The walk goes on after the refusal that has stopped it.
    pub(crate) fn go_on(&mut self) {
        self.stopped = false;
    }
}
