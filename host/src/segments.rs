//! The walk over the segments of chained fixups.

use crate::record::{self, narrow, word, write_words};
use crate::walk::Walk;
use crate::{raw, Error, Refusal};

/// What chained fixups know of a segment.
#[derive(Clone, Copy, Debug, PartialEq, Eq)]
#[non_exhaustive]
pub struct Segment {
    /// Its index.
    pub index: u64,
    /// The size of its pages.
    pub page_size: u16,
    /// The format of its pointers.
    pub format: u16,
    /// Its offset in memory.
    pub offset: u64,
    /// The largest value that is a pointer. It is not applied.
    pub limit: u64,
    /// How many pages it has.
    pub pages: u16,
    /// Where its list of starts is, in the bytes of the fixups.
    pub position: u64,
    /// How many starts the list has.
    pub count: u64,
}

/// The segments that have chained fixups.
///
/// A segment whose record is faulty is refused, [`Refusal::FaultyChains`], and the walk goes on
/// with the next one. Any other error is the last item.
#[must_use = "a walk reads nothing until it is iterated"]
#[derive(Clone, Debug)]
pub struct Segments<'a> {
    fixups: &'a [u8],
    walk: Walk<{ record::SEGMENT_STATE }>,
}

impl<'a> Segments<'a> {
    /// A walk over the segments of chained fixups.
    ///
    /// # Errors
    ///
    /// A refusal where the header or the starts do not fit, or the version is not known.
    pub fn new(fixups: &'a [u8]) -> Result<Self, Error> {
        let walk = Walk::start(|state| raw::segment_start(fixups, state))?;
        Ok(Segments { fixups, walk })
    }

    /// A walk that goes on from a state. Any bytes may be given: a state that is none is refused by
    /// the next call.
    pub fn from_state(fixups: &'a [u8], state: [u8; record::SEGMENT_STATE]) -> Self {
        let walk = Walk::from_state(state);
        Segments { fixups, walk }
    }

    /// The state, to go on from.
    #[must_use]
    pub fn into_state(self) -> [u8; record::SEGMENT_STATE] {
        self.walk.into_state()
    }
}

impl Iterator for Segments<'_> {
    type Item = Result<Segment, Error>;

    fn next(&mut self) -> Option<Self::Item> {
        let fixups = self.fixups;
        let step = |state: &mut [u8], item: &mut [u8]| raw::segment_step(fixups, state, item);
        let next = self.walk.next(step, Segment::read);
        if let Some(Err(Error::Refused(Refusal::FaultyChains))) = next {
            self.walk.go_on();
        }
        next
    }
}

impl Segment {
    fn read(item: &[u8; record::SEGMENT_ITEM]) -> Result<Segment, Error> {
        Ok(Segment {
            index: word(item, 0),
            page_size: narrow(item, 1)?,
            format: narrow(item, 2)?,
            offset: word(item, 3),
            limit: word(item, 4),
            pages: narrow(item, 5)?,
            position: word(item, 6),
            count: word(item, 7),
        })
    }

    /// The record of the segment, as the library has it.
    pub(crate) fn record(&self) -> [u8; record::SEGMENT_ITEM] {
        let mut item = [0; record::SEGMENT_ITEM];
        let words = [
            self.index,
            self.page_size.into(),
            self.format.into(),
            self.offset,
            self.limit,
            self.pages.into(),
            self.position,
            self.count,
        ];
        write_words(&words, &mut item);
        item
    }
}
