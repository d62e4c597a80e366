//! The walk over the chained fixups of a segment.

use crate::record::{self, word};
use crate::walk::Walk;
use crate::{raw, Error, Segment};

/// What the loader puts into a pointer.
#[derive(Clone, Copy, Debug, PartialEq, Eq)]
#[non_exhaustive]
pub enum Patch {
    /// An address of the image.
    Rebase {
        /// Its offset, with high8 in the top byte.
        target: u64,
    },
    /// The address of a symbol.
    Bind {
        /// The index of the import, among those of [`Imports`](crate::Imports).
        ordinal: u64,
        /// What is added to the address.
        addend: u64,
    },
}

/// A pointer that the loader patches.
#[derive(Clone, Copy, Debug, PartialEq, Eq)]
#[non_exhaustive]
pub struct Fixup {
    /// Where it is: its offset in the segment.
    pub place: u64,
    /// What is put there.
    pub patch: Patch,
}

/// The chained fixups of a segment, page by page and chain by chain. An error is the last item.
#[must_use = "a walk reads nothing until it is iterated"]
#[derive(Clone, Debug)]
pub struct Fixups<'a> {
    fixups: &'a [u8],
    contents: &'a [u8],
    walk: Walk<{ record::PAGE_STATE }>,
}

impl<'a> Fixups<'a> {
    /// A walk over the fixups of a segment, whose bytes are `contents`; `base` is the preferred load
    /// address of the image.
    ///
    /// # Errors
    ///
    /// A refusal where the format of the segment's pointers is not known, or where its list of
    /// starts does not lie in the fixups: then it is a segment of others.
    pub fn new(
        fixups: &'a [u8],
        segment: &Segment,
        base: u64,
        contents: &'a [u8],
    ) -> Result<Self, Error> {
        let segment = segment.record();
        let walk = Walk::start(|state| raw::page_start(fixups, &segment, base, state))?;
        Ok(Fixups {
            fixups,
            contents,
            walk,
        })
    }

    /// A walk that goes on from a state. Any bytes may be given: a state that is none is refused by
    /// the next call.
    pub fn from_state(
        fixups: &'a [u8],
        contents: &'a [u8],
        state: [u8; record::PAGE_STATE],
    ) -> Self {
        let walk = Walk::from_state(state);
        Fixups {
            fixups,
            contents,
            walk,
        }
    }

    /// The state, to go on from.
    #[must_use]
    pub fn into_state(self) -> [u8; record::PAGE_STATE] {
        self.walk.into_state()
    }
}

impl Iterator for Fixups<'_> {
    type Item = Result<Fixup, Error>;

    fn next(&mut self) -> Option<Self::Item> {
        let (fixups, contents) = (self.fixups, self.contents);
        let step = |s: &mut [u8], item: &mut [u8]| raw::page_step(fixups, contents, s, item);
        self.walk.next(step, Fixup::read)
    }
}

impl Fixup {
    fn read(item: &[u8; record::PAGE_ITEM]) -> Result<Fixup, Error> {
        let patch = match word(item, 1) {
            0 => Patch::Rebase {
                target: word(item, 2),
            },
            1 => Patch::Bind {
                ordinal: word(item, 3),
                addend: word(item, 4),
            },
            kind => return Err(Error::unknown("kind of fixup", kind)),
        };
        Ok(Fixup {
            place: word(item, 0),
            patch,
        })
    }
}

#[cfg(test)]
mod tests {
    use super::{record, Error, Fixup};
    use crate::record::write_words;

    #[test]
    fn a_kind_of_another_version_is_an_error() {
        let mut item = [0; record::PAGE_ITEM];
        write_words(&[8, 2], &mut item);
        let what = "kind of fixup";
        let unknown = Error::Unknown { what, number: 2 };
        assert_eq!(Fixup::read(&item), Err(unknown));
    }
}
