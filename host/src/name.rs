//! Names in lent bytes.

use crate::answer::Answer;
use crate::{raw, record, Error};

/// The part of the bytes at a position and of a length, as an item has them: the bytes themselves,
/// and no copy. It is empty where position and length do not lie in them.
///
/// ```
/// use brinetrellis::name;
///
/// let stream = [0x11, 0x40, 0x5f, 0x61, 0x00, 0x51, 0x72, 0x08, 0x90];
/// assert_eq!(name(&stream, 2, 2)?, b"_a");
/// assert_eq!(name(&stream, 8, 2)?, b"");
/// # Ok::<(), brinetrellis::Error>(())
/// ```
///
/// # Errors
///
/// [`Error::Unknown`] where the archive is not the one that this crate knows. No position and no
/// length is refused.
pub fn name(bytes: &[u8], position: u64, length: u64) -> Result<&[u8], Error> {
    let mut part = [0; record::PART];
    let number = raw::name(bytes, position, length, &mut part);
    match Answer::of(number)? {
        Answer::Item => {
            let start = record::narrow::<usize>(&part, 0)?;
            let length = record::narrow::<usize>(&part, 1)?;
            let rest = bytes.get(start..).and_then(|rest| rest.get(..length));
            rest.ok_or(Error::unknown("part of the bytes", start as u64))
        }
        Answer::End | Answer::More => Err(Error::unknown("answer of a name", number)),
    }
}
