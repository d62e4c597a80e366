//! The walk over the imports of chained fixups.

use crate::record::{self, narrow_signed, signed, word};
use crate::walk::Walk;
use crate::{name, raw, Error};

/// A symbol that is imported.
#[derive(Clone, Copy, Debug, PartialEq, Eq)]
#[non_exhaustive]
pub struct Import<'a> {
    /// The library that it is taken from, by its number; special ones are negative.
    pub library: i32,
    /// Whether it may be missing.
    pub weak: bool,
    /// What is added to its address.
    pub addend: i64,
    /// Its name: a part of the fixups' bytes.
    pub name: &'a [u8],
}

/// The imports of chained fixups; the ordinal of a bind among the fixups counts them from 0.
///
/// An error is the last item.
#[must_use = "a walk reads nothing until it is iterated"]
#[derive(Clone, Debug)]
pub struct Imports<'a> {
    fixups: &'a [u8],
    walk: Walk<{ record::IMPORT_STATE }>,
}

impl<'a> Imports<'a> {
    /// A walk over the imports of chained fixups.
    ///
    /// # Errors
    ///
    /// A refusal where the header does not fit, or its version or the format of its symbols is not
    /// known, or the imports or the symbols lie beyond the bytes.
    pub fn new(fixups: &'a [u8]) -> Result<Self, Error> {
        let walk = Walk::start(|state| raw::import_start(fixups, state))?;
        Ok(Imports { fixups, walk })
    }

    /// A walk that goes on from a state. Any bytes may be given: a state that is none is refused by
    /// the next call.
    pub fn from_state(fixups: &'a [u8], state: [u8; record::IMPORT_STATE]) -> Self {
        let walk = Walk::from_state(state);
        Imports { fixups, walk }
    }

    /// The state, to go on from.
    #[must_use]
    pub fn into_state(self) -> [u8; record::IMPORT_STATE] {
        self.walk.into_state()
    }
}

impl<'a> Iterator for Imports<'a> {
    type Item = Result<Import<'a>, Error>;

    fn next(&mut self) -> Option<Self::Item> {
        let fixups = self.fixups;
        let step = |state: &mut [u8], item: &mut [u8]| raw::import_step(fixups, state, item);
        self.walk.next(step, |item| Import::read(fixups, item))
    }
}

impl<'a> Import<'a> {
    fn read(fixups: &'a [u8], item: &[u8; record::IMPORT_ITEM]) -> Result<Import<'a>, Error> {
        Ok(Import {
            library: narrow_signed(item, 0)?,
            weak: word(item, 1) != 0,
            addend: signed(item, 2),
            name: name(fixups, word(item, 3), word(item, 4))?,
        })
    }
}
