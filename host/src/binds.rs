//! The walks over bind streams: plain, weak and lazy.

use crate::record::{self, narrow, narrow_signed, signed, word};
use crate::walk::Walk;
use crate::{name, raw, Error};

/// A place that the loader binds to a symbol.
#[derive(Clone, Copy, Debug, PartialEq, Eq)]
#[non_exhaustive]
pub struct Bind<'a> {
    /// The index of its segment.
    pub segment: u8,
    /// Where it is: its offset in the segment.
    pub place: u64,
    /// Its type.
    pub kind: u8,
    /// The library that the symbol is taken from, by its number; special ones are negative or 0.
    pub library: i32,
    /// The symbol's name: a part of the stream.
    pub name: &'a [u8],
    /// The symbol's flags.
    pub flags: u8,
    /// What is added to the symbol's address.
    pub addend: i64,
}

/// The places of a bind stream.
///
/// An error is the last item. After the `None` of a Done in a plain or a weak stream, `next` goes
/// on behind that Done; so this is no `FusedIterator`. In a lazy stream Done does not end the walk.
///
/// ```
/// use brinetrellis::{Bind, Binds, Error};
///
/// let stream = [0x11, 0x40, b'_', b'a', 0x00, 0x51, 0x72, 0x08, 0x90];
/// let binds: Vec<Bind> = Binds::plain(&stream, 8)?.collect::<Result<_, _>>()?;
/// assert_eq!((binds.len(), binds[0].library, binds[0].name), (1, 1, &b"_a"[..]));
/// # Ok::<(), Error>(())
/// ```
#[must_use = "a walk reads nothing until it is iterated"]
#[derive(Clone, Debug)]
pub struct Binds<'a> {
    stream: &'a [u8],
    walk: Walk<{ record::BIND_STATE }>,
}

impl<'a> Binds<'a> {
    /// A walk over a stream of plain binds, of a pointer size, which is 4 or 8.
    ///
    /// # Errors
    ///
    /// [`Refusal::PointerSize`](crate::Refusal::PointerSize) for a size other than 4 and 8.
    pub fn plain(stream: &'a [u8], pointer_size: u64) -> Result<Self, Error> {
        let walk = Walk::start(|state| raw::bind_plain(pointer_size, state))?;
        Ok(Binds { stream, walk })
    }

    /// A walk over a stream of weak binds, of a pointer size: type 1 and library -3 are set.
    ///
    /// # Errors
    ///
    /// [`Refusal::PointerSize`](crate::Refusal::PointerSize) for a size other than 4 and 8.
    pub fn weak(stream: &'a [u8], pointer_size: u64) -> Result<Self, Error> {
        let walk = Walk::start(|state| raw::bind_weak(pointer_size, state))?;
        Ok(Binds { stream, walk })
    }

    /// A walk over a stream of lazy binds, of a pointer size: type 1 is set.
    ///
    /// # Errors
    ///
    /// [`Refusal::PointerSize`](crate::Refusal::PointerSize) for a size other than 4 and 8.
    pub fn lazy(stream: &'a [u8], pointer_size: u64) -> Result<Self, Error> {
        let walk = Walk::start(|state| raw::bind_lazy(pointer_size, state))?;
        Ok(Binds { stream, walk })
    }

    /// A walk that goes on from a state. Any bytes may be given: a state that is none is refused by
    /// the next call.
    pub fn from_state(stream: &'a [u8], state: [u8; record::BIND_STATE]) -> Self {
        let walk = Walk::from_state(state);
        Binds { stream, walk }
    }

    /// The state, to go on from.
    #[must_use]
    pub fn into_state(self) -> [u8; record::BIND_STATE] {
        self.walk.into_state()
    }
}

impl<'a> Iterator for Binds<'a> {
    type Item = Result<Bind<'a>, Error>;

    fn next(&mut self) -> Option<Self::Item> {
        let stream = self.stream;
        let step = |state: &mut [u8], item: &mut [u8]| raw::bind_step(stream, state, item);
        self.walk.next(step, |item| Bind::read(stream, item))
    }
}

impl<'a> Bind<'a> {
    fn read(stream: &'a [u8], item: &[u8; record::BIND_ITEM]) -> Result<Bind<'a>, Error> {
        Ok(Bind {
            segment: narrow(item, 0)?,
            place: word(item, 1),
            kind: narrow(item, 2)?,
            library: narrow_signed(item, 3)?,
            name: name(stream, word(item, 4), word(item, 5))?,
            flags: narrow(item, 6)?,
            addend: signed(item, 7),
        })
    }
}
