//! What an entry point answers.

use crate::{Error, Refusal};

/// An item; of a start, that it has begun; of a preflight, that it passes; of a name, that it is told.
pub const ITEM: u64 = 0;

/// There are no more items.
pub const END: u64 = 256;

/// The limit of nodes is reached. Of the exports trie only.
pub const MORE: u64 = 257;

/// An answer that is no refusal, by its meaning.
#[derive(Clone, Copy, Debug, PartialEq, Eq)]
pub(crate) enum Answer {
    Item,
    More,
    End,
}

impl Answer {
    /// What the library has answered.
    pub(crate) fn of(number: u64) -> Result<Answer, Error> {
        match number {
            ITEM => Ok(Answer::Item),
            MORE => Ok(Answer::More),
            END => Ok(Answer::End),
            _ => Err(match Refusal::try_from(number) {
                Ok(refusal) => Error::Refused(refusal),
                Err(_) => Error::unknown("answer", number),
            }),
        }
    }
}

#[cfg(test)]
mod tests {
    use super::{Answer, Error, Refusal};

    #[test]
    fn an_answer_is_known_or_an_error() {
        assert_eq!(Answer::of(0), Ok(Answer::Item));
        assert_eq!(Answer::of(256), Ok(Answer::End));
        assert_eq!(Answer::of(257), Ok(Answer::More));
        for refusal in Refusal::ALL {
            assert_eq!(Answer::of(refusal.number()), Err(Error::Refused(*refusal)));
        }
        for number in [99, 255, 258, 256 + 19, 1 << 32, u64::MAX] {
            let what = "answer";
            assert_eq!(Answer::of(number), Err(Error::Unknown { what, number }));
        }
    }
}
