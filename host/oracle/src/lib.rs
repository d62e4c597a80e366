//! The crate object 0.40.0 as a judge of the reader: its `dyld_info.rs`, `exports_trie.rs` and
//! `fixup.rs`, compiled unchanged where they lie (see `build.rs`), over `Bytes` and `ReadRef` of
//! object 0.30.0 and the LEB128 readers of gimli 0.27.0, unchanged too.
//!
//! Each function takes the bytes of one walk and notes what the crate answers, call after call,
//! with the numbers of the C boundary. Without the sources the functions are there but answer
//! nothing; [`LIVE`] tells.
//!
//! These sources are several packages. In those named for memchr the end of a string is found by
//! the crate memchr, as in the published crate, where rustc's own build of it can be taken
//! ([`MEMCHR`] tells), in the others byte by byte. Otherwise they are the same, and each is there
//! for one use: a function that two uses call may be compiled out of line, and both be slower.

#![cfg_attr(real_memchr, feature(rustc_private))]

// Both names are needed by the foreign files: `alloc` as a path, `memchr` as a crate.
extern crate alloc;
#[cfg(real_memchr)]
extern crate memchr;
#[cfg(all(live, not(real_memchr)))]
extern crate self as memchr;

mod answers;
pub use answers::{Answers, Bounds, END, ITEM};

/// Whether the published sources were there at the build.
pub const LIVE: bool = cfg!(live);

/// Which of the published sources were missing at the build; empty where none.
pub const MISSING: &str = env!("ORACLE_MISSING");

/// Whether the end of a string is found by the crate memchr.
pub const MEMCHR: bool = cfg!(real_memchr);

// The foreign modules stand first: the others use their macros.
#[cfg(live)]
include!(concat!(env!("OUT_DIR"), "/live.rs"));

#[cfg(live)]
mod chains;
#[cfg(live)]
mod glue;
#[cfg(live)]
mod macho;
#[cfg(live)]
mod operations;
#[cfg(live)]
mod plain;
#[cfg(live)]
mod streams;
#[cfg(live)]
pub mod sums;
#[cfg(live)]
mod texts;
#[cfg(live)]
mod trie;
#[cfg(live)]
pub use {chains::*, operations::*, plain::*, streams::*, trie::*};

#[cfg(all(live, not(real_memchr)))]
pub use glue::memchr;
#[cfg(live)]
use read::ReadRef;

#[cfg(not(live))]
mod absent;
#[cfg(not(live))]
pub use absent::*;

/// Which of the four opcode streams: each has its own start.
#[derive(Debug, Clone, Copy, PartialEq, Eq)]
pub enum Stream {
    Rebase,
    Plain,
    Weak,
    Lazy,
}
