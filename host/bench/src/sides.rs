//! The same question to both sides: the library, and the Rust.

use crate::lent::Lent;
use crate::{laps, steps};
use brinetrellis::{preflight, Binds, Error, Exports, Fixups, Imports, Rebases, Segments, Verdict};
use oracle::sums;
use oracle_preflight::Stream;

/// The sum of a walk, or the verdict of a preflight: its number and two words.
pub type Answer = [u64; 3];

#[derive(Clone, Copy)]
pub struct Sides {
    /// How many items the library lists, or how many operations its preflight reads.
    pub items: fn(&Lent) -> Result<u64, String>,
    pub ours: fn(&Lent) -> Answer,
    pub rust: fn(&Lent) -> Answer,
}

/// Bytes for a name: those of the tries fit.
const NAME: usize = 64;

// ---- walks, as loops inside the library

pub const REBASE: Sides = Sides {
    items: |lent| count(Rebases::new(&lent.bytes, lent.pointer_size.into())),
    ours: |lent| one(laps::rebase(&lent.bytes, lent.pointer_size)),
    rust: |lent| one(sums::rebase(&lent.bytes, lent.pointer_size)),
};

pub const BIND: Sides = Sides {
    items: |lent| count(Binds::plain(&lent.bytes, lent.pointer_size.into())),
    ours: |lent| one(laps::bind(&lent.bytes, lent.pointer_size)),
    rust: |lent| one(sums::bind(&lent.bytes, lent.pointer_size)),
};

pub const TRIE: Sides = Sides {
    items: |lent| count(Exports::with_room(&lent.bytes, NAME)),
    ours: |lent| one(laps::trie(&lent.bytes, &mut [0; NAME])),
    rust: |lent| one(sums::trie(&lent.bytes)),
};

pub const PAGES: Sides = Sides {
    items: |lent| count(first_fixups(lent)),
    ours: |lent| one(laps::pages(&lent.bytes, &lent.contents, lent.base)),
    rust: |lent| one(sums::pages(&lent.bytes, &lent.contents, lent.base)),
};

// ---- walks, step by step through the C boundary

pub const REBASE_STEPS: Sides = Sides {
    ours: |lent| one(steps::rebase(&lent.bytes, lent.pointer_size)),
    ..REBASE
};

pub const BIND_STEPS: Sides = Sides {
    ours: |lent| one(steps::bind(&lent.bytes, lent.pointer_size)),
    ..BIND
};

pub const TRIE_STEPS: Sides = Sides {
    ours: |lent| one(steps::trie(&lent.bytes, &mut [0; NAME])),
    ..TRIE
};

pub const PAGE_STEPS: Sides = Sides {
    ours: |lent| one(steps::pages(&lent.bytes, &lent.contents, lent.base)),
    ..PAGES
};

pub const SEGMENT_STEPS: Sides = Sides {
    items: |lent| count(Segments::new(&lent.bytes)),
    ours: |lent| one(steps::segments(&lent.bytes)),
    rust: |lent| one(sums::segments(&lent.bytes)),
};

pub const IMPORT_STEPS: Sides = Sides {
    items: |lent| count(Imports::new(&lent.bytes)),
    ours: |lent| one(steps::imports(&lent.bytes)),
    rust: |lent| one(sums::imports(&lent.bytes)),
};

// ---- preflights, and plain ones in Rust

pub const JUDGE_REBASE: Sides = Sides {
    items: |lent| {
        passed(preflight::rebases(
            &lent.bytes,
            lent.pointer_size.into(),
            &lent.sizes,
        ))
    },
    ours: |lent| steps::preflight_rebase(&lent.bytes, lent.pointer_size, &lent.packed),
    rust: |lent| plain(Stream::Rebase, lent),
};

pub const JUDGE_BIND: Sides = Sides {
    items: |lent| {
        passed(preflight::plain_binds(
            &lent.bytes,
            lent.pointer_size.into(),
            &lent.sizes,
        ))
    },
    ours: |lent| steps::preflight_plain(&lent.bytes, lent.pointer_size, &lent.packed),
    rust: |lent| plain(Stream::Plain, lent),
};

// ---- preflights, and a walk of the Rust to every place, which finds the number alone

pub const VISIT_REBASE: Sides = Sides {
    ours: |lent| one((JUDGE_REBASE.ours)(lent)[0]),
    rust: |lent| {
        one(oracle_visits::sums::visit_rebases(
            &lent.bytes,
            lent.pointer_size,
            &lent.sizes,
        ))
    },
    ..JUDGE_REBASE
};

pub const VISIT_BIND: Sides = Sides {
    ours: |lent| one((JUDGE_BIND.ours)(lent)[0]),
    rust: |lent| {
        one(oracle_visits::sums::visit_binds(
            &lent.bytes,
            lent.pointer_size,
            &lent.sizes,
        ))
    },
    ..JUDGE_BIND
};

fn plain(stream: Stream, lent: &Lent) -> Answer {
    oracle_preflight::preflight(stream, &lent.bytes, lent.pointer_size.into(), &lent.sizes)
}

/// One number, as an answer.
pub fn one(number: u64) -> Answer {
    [number, 0, 0]
}

/// The items of a walk that is not refused.
fn count<T>(walk: Result<impl Iterator<Item = Result<T, Error>>, Error>) -> Result<u64, String> {
    let mut items = walk.map_err(|error| error.to_string())?;
    let counted = items.try_fold(0, |count, item| item.map(|_| count + 1));
    counted.map_err(|error| error.to_string())
}

fn first_fixups(lent: &Lent) -> Result<Fixups<'_>, Error> {
    let segment = Segments::new(&lent.bytes)?.next();
    let segment = segment.expect("there is a segment")?;
    Fixups::new(&lent.bytes, &segment, lent.base, &lent.contents)
}

/// The operations of a preflight that passes.
fn passed(verdict: Verdict) -> Result<u64, String> {
    match verdict {
        Verdict::Passes { operations } => Ok(operations),
        other => Err(format!("{other:?}")),
    }
}
