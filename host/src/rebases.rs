//! The walk over a rebase stream.

use crate::record::{self, narrow, word};
use crate::walk::Walk;
use crate::{raw, Error};

/// A place that the loader slides.
#[derive(Clone, Copy, Debug, PartialEq, Eq)]
#[non_exhaustive]
pub struct Rebase {
    /// The index of its segment.
    pub segment: u8,
    /// Where it is: its offset in the segment.
    pub place: u64,
    /// Its type.
    pub kind: u8,
}

/// The places of a rebase stream.
///
/// An error is the last item. After the `None` of a Done, `next` goes on behind that Done; so this
/// is no `FusedIterator`.
///
/// ```
/// use brinetrellis::{Error, Rebases, Refusal};
///
/// let mut rebases = Rebases::new(&[0x51], 8)?;
/// assert_eq!(rebases.next(), Some(Err(Error::Refused(Refusal::NoSegment))));
/// assert_eq!(rebases.next(), None);
///
/// let error = Rebases::new(&[0x51], 7).unwrap_err();
/// assert_eq!(error.to_string(), "pointer size is neither 4 nor 8");
/// # Ok::<(), Error>(())
/// ```
#[must_use = "a walk reads nothing until it is iterated"]
#[derive(Clone, Debug)]
pub struct Rebases<'a> {
    stream: &'a [u8],
    walk: Walk<{ record::REBASE_STATE }>,
}

impl<'a> Rebases<'a> {
    /// A walk over a stream of a pointer size, which is 4 or 8.
    ///
    /// # Errors
    ///
    /// [`Refusal::PointerSize`](crate::Refusal::PointerSize) for any other size.
    pub fn new(stream: &'a [u8], pointer_size: u64) -> Result<Self, Error> {
        let walk = Walk::start(|state| raw::rebase_start(pointer_size, state))?;
        Ok(Rebases { stream, walk })
    }

    /// A walk that goes on from a state. Any bytes may be given: a state that is none is refused by
    /// the next call.
    pub fn from_state(stream: &'a [u8], state: [u8; record::REBASE_STATE]) -> Self {
        let walk = Walk::from_state(state);
        Rebases { stream, walk }
    }

    /// The state, to go on from.
    #[must_use]
    pub fn into_state(self) -> [u8; record::REBASE_STATE] {
        self.walk.into_state()
    }
}

impl Iterator for Rebases<'_> {
    type Item = Result<Rebase, Error>;

    fn next(&mut self) -> Option<Self::Item> {
        let stream = self.stream;
        let step = |state: &mut [u8], item: &mut [u8]| raw::rebase_step(stream, state, item);
        self.walk.next(step, Rebase::read)
    }
}

impl Rebase {
    fn read(item: &[u8; record::REBASE_ITEM]) -> Result<Rebase, Error> {
        Ok(Rebase {
            segment: narrow(item, 0)?,
            place: word(item, 1),
            kind: narrow(item, 2)?,
        })
    }
}
