//! The preflight of an opcode stream: does a walk over it end without refusal, with every place
//! inside its segment? However many places a repeat has, it is not stepped through.

use crate::answer::Answer;
use crate::record::{self, word, write_words};
use crate::{raw, Error, Refusal};

/// What a preflight says of a stream. Only one that passes may ship.
///
/// A verdict that is dropped is a stream that nobody has judged; the compiler warns of it:
///
/// ```compile_fail
/// #![deny(unused_must_use)]
/// brinetrellis::preflight::rebases(&[0x51], 8, &[]);
/// ```
///
/// ```
/// #![deny(unused_must_use)]
/// let verdict = brinetrellis::preflight::rebases(&[0x51], 8, &[]);
/// assert!(!verdict.passes());
/// ```
#[must_use = "a stream that does not pass must not ship"]
#[derive(Clone, Copy, Debug, PartialEq, Eq)]
pub enum Verdict {
    /// The walk over it ends, and every place is inside its segment.
    Passes {
        /// How many operations were read, Done included.
        operations: u64,
    },
    /// The first fault.
    Fault {
        /// What it is.
        refusal: Refusal,
        /// The byte position where its operation starts.
        position: u64,
        /// The index in the repeat of a place that is outside; else 0.
        index: u64,
    },
    /// No verdict: the archive has answered a number that this crate does not know, so it is of
    /// another version.
    Unknown {
        /// The number.
        answer: u64,
    },
}

impl Verdict {
    /// Whether the stream passes.
    #[must_use]
    pub const fn passes(self) -> bool {
        matches!(self, Verdict::Passes { .. })
    }
}

/// The preflight of a rebase stream of a pointer size; `sizes` are those of the segments in order. A
/// place is inside its segment if all its bytes are: four of a text relocation, type 2 or 3, and of
/// any other type the pointer size. So it is in binds, too.
///
/// ```
/// use brinetrellis::{preflight, Refusal, Verdict};
///
/// let stream = [0x11, 0x22, 0x10, 0x53, 0x00];
/// let passes = Verdict::Passes { operations: 4 };
/// assert_eq!(preflight::rebases(&stream, 8, &[0, 0, 40]), passes);
///
/// let fault = Verdict::Fault { refusal: Refusal::PlaceOutside, position: 3, index: 2 };
/// assert_eq!(preflight::rebases(&stream, 8, &[0, 0, 39]), fault);
/// ```
pub fn rebases(stream: &[u8], pointer_size: u64, sizes: &[u64]) -> Verdict {
    judge(raw::preflight_rebase, stream, pointer_size, sizes)
}

/// The preflight of a stream of plain binds.
pub fn plain_binds(stream: &[u8], pointer_size: u64, sizes: &[u64]) -> Verdict {
    judge(raw::preflight_plain, stream, pointer_size, sizes)
}

/// The preflight of a stream of weak binds.
pub fn weak_binds(stream: &[u8], pointer_size: u64, sizes: &[u64]) -> Verdict {
    judge(raw::preflight_weak, stream, pointer_size, sizes)
}

/// The preflight of a stream of lazy binds.
pub fn lazy_binds(stream: &[u8], pointer_size: u64, sizes: &[u64]) -> Verdict {
    judge(raw::preflight_lazy, stream, pointer_size, sizes)
}

/// One more size than a preflight takes. What is behind it changes no verdict.
const ENOUGH: usize = 17;

/// An entry point: the stream, the pointer size, the sizes and the verdict.
type Entry = fn(&[u8], u64, &[u8], &mut [u8]) -> u64;

fn judge(entry: Entry, stream: &[u8], pointer_size: u64, sizes: &[u64]) -> Verdict {
    let mut bytes = [0; 8 * ENOUGH];
    write_words(sizes, &mut bytes);
    let bytes = &bytes[..8 * sizes.len().min(ENOUGH)];
    let mut verdict = [0; record::VERDICT];
    let answer = entry(stream, pointer_size, bytes, &mut verdict);
    match Answer::of(answer) {
        Ok(Answer::Item) => Verdict::Passes {
            operations: word(&verdict, 0),
        },
        Err(Error::Refused(refusal)) => Verdict::Fault {
            refusal,
            position: word(&verdict, 0),
            index: word(&verdict, 1),
        },
        _ => Verdict::Unknown { answer },
    }
}
