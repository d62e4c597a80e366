//! The walk over an exports trie.

use crate::answer::Answer;
use crate::record::{self, narrow, word, FIELD};
use crate::walk::Walk;
use crate::{name, raw, Error};

/// What a symbol that is exported stands for.
#[derive(Clone, Copy, Debug, PartialEq, Eq)]
#[non_exhaustive]
pub enum Target<'a> {
    /// An address in the image, by its offset.
    Regular {
        /// The offset.
        address: u64,
    },
    /// A symbol of another library.
    Reexport {
        /// The library that the symbol is taken from, by its number.
        library: u64,
        /// The symbol's name there, a part of the trie's bytes; an empty one stands for the export's own.
        name: &'a [u8],
    },
    /// A stub, and a function that finds the address.
    StubAndResolver {
        /// The stub's offset.
        stub: u64,
        /// The function's offset.
        resolver: u64,
    },
}

/// A symbol that is exported.
#[derive(Clone, Debug, PartialEq, Eq)]
#[non_exhaustive]
pub struct Export<'a> {
    /// Its name.
    pub name: Vec<u8>,
    /// Its flags.
    pub flags: u8,
    /// What it stands for.
    pub target: Target<'a>,
}

/// What a call with a limit has come to.
#[must_use = "what is found is not listed again"]
#[derive(Clone, Debug, PartialEq, Eq)]
pub struct Progress<'a> {
    /// How many nodes it has visited, a refused one not counted.
    pub visits: u64,
    /// What it has found.
    pub found: Found<'a>,
}

/// What a call with a limit has found.
#[must_use = "what is found is not listed again"]
#[derive(Clone, Debug, PartialEq, Eq)]
pub enum Found<'a> {
    /// An export.
    Export(Export<'a>),
    /// The limit is reached, and there are more nodes.
    More,
    /// No more exports.
    End,
    /// An error, with which the walk has ended.
    Failed(Error),
}

/// The exports of a trie, in the order of its edges.
///
/// An error is the last item. Since nodes may be shared, a few hundred bytes can lead to more
/// nodes than anyone can visit; so `next` has a budget for one item: a million nodes, or what
/// `with_budget` says. If it has come to no export then, it gives [`Error::Budget`], and from there
/// on `None`, so that a loop that passes over errors ends, too. The walk itself has not ended:
/// `next_within`, which visits no more nodes than it is told, goes on behind the last node, and so
/// does a walk that is made from its state.
///
/// The budget is that of one item. An export of a shared node is listed once for each way to it, so
/// that a list can be longer than the trie; `take` bounds it.
///
/// ```
/// use brinetrellis::{Error, Exports};
///
/// // Two edges, `ab` and `c`, lead to one node at 9, which exports the address 16.
/// let trie = b"\x00\x02ab\x00\x09c\x00\x09\x02\x01\x10\x00";
/// let mut names = Vec::new();
/// for export in Exports::new(trie)? {
///     names.push(export?.name);
/// }
/// assert_eq!(names, [b"ab".to_vec(), b"c".to_vec()]);
///
/// // The root alone comes to no export.
/// let mut exports = Exports::new(trie)?.with_budget(1);
/// assert_eq!(exports.next(), Some(Err(Error::Budget { nodes: 1 })));
/// assert_eq!(exports.next(), None);
/// # Ok::<(), Error>(())
/// ```
#[must_use = "a walk reads nothing until it is iterated"]
#[derive(Clone, Debug)]
pub struct Exports<'a> {
    trie: &'a [u8],
    walk: Box<Walk<{ record::TRIE_STATE }>>,
    name: Vec<u8>,
    budget: u64,
    spent: bool,
}

impl<'a> Exports<'a> {
    /// The longest name that `new` has room for.
    pub const ROOM: usize = 4096;

    /// How many nodes `next` visits for one item, if `with_budget` says nothing else.
    pub const BUDGET: u64 = 1_000_000;

    /// A walk with room for names of up to 4,096 bytes.
    ///
    /// # Errors
    ///
    /// [`Error::Unknown`] where the archive is not the one that this crate knows. No trie is
    /// refused here.
    pub fn new(trie: &'a [u8]) -> Result<Self, Error> {
        Exports::with_room(trie, Exports::ROOM)
    }

    /// A walk with room for names of up to so many bytes; a longer one is refused.
    ///
    /// # Errors
    ///
    /// [`Error::Unknown`] where the archive is not the one that this crate knows. No trie is
    /// refused here.
    pub fn with_room(trie: &'a [u8], room: usize) -> Result<Self, Error> {
        let walk = Walk::start(raw::trie_start)?;
        Ok(Exports::of(trie, walk, vec![0; room]))
    }

    /// The same walk, of which `next` visits at most so many nodes for one item.
    pub fn with_budget(self, nodes: u64) -> Self {
        Exports {
            budget: nodes,
            ..self
        }
    }

    fn of(trie: &'a [u8], walk: Walk<{ record::TRIE_STATE }>, name: Vec<u8>) -> Self {
        Exports {
            trie,
            walk: Box::new(walk),
            name,
            budget: Exports::BUDGET,
            spent: false,
        }
    }

    /// A walk that goes on from a state and the names' room, as `into_state` gives them. Any bytes may
    /// be given: a state that is none is refused by the next call.
    pub fn from_state(trie: &'a [u8], state: [u8; record::TRIE_STATE], name: Vec<u8>) -> Self {
        Exports::of(trie, Walk::from_state(state), name)
    }

    /// The state and the names' room, to go on from.
    #[must_use]
    pub fn into_state(self) -> ([u8; record::TRIE_STATE], Vec<u8>) {
        (self.walk.into_state(), self.name)
    }

    /// The next export, if it is found within so many nodes.
    ///
    /// ```
    /// use brinetrellis::{Exports, Found, Progress};
    ///
    /// let mut exports = Exports::new(b"\x00\x02ab\x00\x09c\x00\x09\x02\x01\x10\x00")?;
    /// let root = Progress { visits: 1, found: Found::More };
    /// assert_eq!(exports.next_within(1), root);
    /// assert!(matches!(exports.next_within(1).found, Found::Export(e) if e.name == b"ab"));
    /// # Ok::<(), brinetrellis::Error>(())
    /// ```
    pub fn next_within(&mut self, limit: u64) -> Progress<'a> {
        let mut item = [0; record::TRIE_ITEM];
        let (trie, buffer) = (self.trie, &mut self.name);
        let answer = self
            .walk
            .call(|state| raw::trie_step(trie, state, buffer, limit, &mut item));
        let found = answer.and_then(|answer| match answer {
            Answer::Item => Export::read(trie, buffer, &item).map(Found::Export),
            Answer::More => Ok(Found::More),
            Answer::End => Ok(Found::End),
        });
        let found = found.unwrap_or_else(|error| {
            self.walk.stop();
            Found::Failed(error)
        });
        Progress {
            visits: word(&item, 0),
            found,
        }
    }
}

impl<'a> Iterator for Exports<'a> {
    type Item = Result<Export<'a>, Error>;

    fn next(&mut self) -> Option<Self::Item> {
        if self.spent {
            return None;
        }
        match self.next_within(self.budget).found {
            Found::Export(export) => Some(Ok(export)),
            Found::End => None,
            Found::Failed(error) => Some(Err(error)),
            Found::More => {
                self.spent = true;
                Some(Err(Error::Budget { nodes: self.budget }))
            }
        }
    }
}

impl<'a> Export<'a> {
    fn read(
        trie: &'a [u8],
        buffer: &[u8],
        item: &[u8; record::TRIE_ITEM],
    ) -> Result<Export<'a>, Error> {
        let length = narrow::<usize>(item, 1)?;
        let name = buffer.get(..length);
        Ok(Export {
            name: name.ok_or(Error::unknown(FIELD, word(item, 1)))?.to_vec(),
            flags: narrow(item, 2)?,
            target: Target::read(trie, item)?,
        })
    }
}

impl<'a> Target<'a> {
    fn read(trie: &'a [u8], item: &[u8; record::TRIE_ITEM]) -> Result<Target<'a>, Error> {
        match word(item, 3) {
            0 => Ok(Target::Regular {
                address: word(item, 4),
            }),
            1 => Ok(Target::Reexport {
                library: word(item, 6),
                name: name(trie, word(item, 7), word(item, 8))?,
            }),
            2 => Ok(Target::StubAndResolver {
                stub: word(item, 4),
                resolver: word(item, 5),
            }),
            kind => Err(Error::unknown("kind of export", kind)),
        }
    }
}

#[cfg(test)]
mod tests {
    use super::{record, Error, Export};
    use crate::record::write_words;

    /// An export whose record has these words, with a buffer of two bytes.
    fn read(words: &[u64]) -> Result<Export<'static>, Error> {
        let mut item = [0; record::TRIE_ITEM];
        write_words(words, &mut item);
        Export::read(&[], b"ab", &item)
    }

    #[test]
    fn a_record_of_another_version_is_an_error() {
        let unknown = |what, number| Err(Error::Unknown { what, number });
        // Visits, length of the name, flags, kind.
        assert_eq!(
            read(&[1, 2, 0, 0]).map(|export| export.name),
            Ok(b"ab".to_vec())
        );
        assert_eq!(read(&[1, 2, 0, 3]), unknown("kind of export", 3));
        assert_eq!(read(&[1, 3, 0, 0]), unknown("value of a field", 3));
        assert_eq!(read(&[1, 2, 256, 0]), unknown("value of a field", 256));
    }
}
