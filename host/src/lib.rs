//! Reads what the macOS loader reads: the rebase and bind opcode streams, the exports trie and the
//! chained fixups of a Mach-O file. The readers are those of `libbrinetrellis.a`, a library that is
//! proved to answer by its definitions whatever the bytes are; this crate gives them the types of
//! Rust. It finds nothing in a Mach-O file: the caller lends the streams.
//!
//! ```
//! use brinetrellis::{preflight, Error, Rebases, Verdict};
//!
//! # fn main() -> Result<(), Error> {
//! // Type 1; segment 2 at offset 16; three pointers behind each other; done.
//! let stream = [0x11, 0x22, 0x10, 0x53, 0x00];
//! let verdict = preflight::rebases(&stream, 8, &[0, 0, 40]);
//! assert_eq!(verdict, Verdict::Passes { operations: 4 });
//!
//! let mut places = Vec::new();
//! for rebase in Rebases::new(&stream, 8)? {
//!     let rebase = rebase?;
//!     places.push((rebase.segment, rebase.place));
//! }
//! assert_eq!(places, [(2, 16), (2, 24), (2, 32)]);
//! # Ok(())
//! # }
//! ```
//!
//! A walk is an iterator of `Result`s. Its state is bytes, which can be taken out of it and put
//! back into another, so that it can be paused. [`raw`] has the entry points as they are.
//!
//! Items, targets and refusals may come to have more: match them with `..` and `_`. A number that
//! this crate does not know, of an archive of another version, is no panic, but an [`Error`], or a
//! [`Verdict`] that does not pass.

#![deny(unsafe_code)]
#![warn(missing_docs)]

pub mod answer;
mod binds;
mod error;
mod exports;
mod fixups;
mod imports;
mod name;
pub mod preflight;
pub mod raw;
mod rebases;
pub mod record;
mod refusal;
mod segments;
mod walk;

pub use binds::{Bind, Binds};
pub use error::Error;
pub use exports::{Export, Exports, Found, Progress, Target};
pub use fixups::{Fixup, Fixups, Patch};
pub use imports::{Import, Imports};
pub use name::name;
pub use preflight::Verdict;
pub use rebases::{Rebase, Rebases};
pub use refusal::{NoRefusal, Refusal};
pub use segments::{Segment, Segments};
