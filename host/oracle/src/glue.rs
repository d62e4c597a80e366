//! What the foreign files import and no published file here has: errors, and what joins the readers
//! to each other.

use crate::leb128;
use crate::read::Bytes;
use core::cell::Cell;

/// The error of all readers: object has a text, gimli names, which are constants here.
#[derive(Debug, Clone, Copy, PartialEq, Eq)]
pub struct Error(pub &'static str);

#[allow(non_upper_case_globals)]
impl Error {
    pub const BadUnsignedLeb128: Error = Error("gimli: an unsigned number beyond 64 bits");
    pub const BadSignedLeb128: Error = Error("gimli: a signed number beyond 64 bits");
}

pub type Result<T> = core::result::Result<T, Error>;

/// Gives a failed reading the text that its caller has for it.
pub trait ReadError<T> {
    fn read_error(self, text: &'static str) -> Result<T>;
}

impl<T> ReadError<T> for core::result::Result<T, ()> {
    fn read_error(self, text: &'static str) -> Result<T> {
        self.map_err(|()| Error(text))
    }
}

impl<T> ReadError<T> for Option<T> {
    fn read_error(self, text: &'static str) -> Result<T> {
        self.ok_or(Error(text))
    }
}

/// What gimli's LEB128 readers need of a reader: one byte after the other.
pub trait Reader {
    fn read_u8(&mut self) -> Result<u8>;
}

impl Reader for Bytes<'_> {
    fn read_u8(&mut self) -> Result<u8> {
        self.read::<u8>().copied().read_error("no byte left")
    }
}

thread_local! {
    static NUMBER_FAILED: Cell<bool> = const { Cell::new(false) };
}

/// Whether a LEB128 number was faulty since this was asked last: the crate has one text for a child
/// offset that is faulty and for one that is open.
pub fn number_failed() -> bool {
    NUMBER_FAILED.take()
}

// Like the other methods of `Bytes`: their callers have texts for what fails.
#[allow(clippy::result_unit_err)]
impl Bytes<'_> {
    pub fn read_uleb128(&mut self) -> core::result::Result<u64, ()> {
        leb128::read::unsigned(self).map_err(|_| NUMBER_FAILED.set(true))
    }

    pub fn read_sleb128(&mut self) -> core::result::Result<i64, ()> {
        leb128::read::signed(self).map_err(|_| ())
    }
}

/// Stands in for what object 0.30.0 takes from the crate of this name: the first place of a byte.
#[cfg(not(real_memchr))]
pub fn memchr(needle: u8, haystack: &[u8]) -> Option<usize> {
    haystack.iter().position(|byte| *byte == needle)
}
