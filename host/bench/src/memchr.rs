//! Both sides, where the Rust finds the end of a string by the crate memchr.

use crate::sides::{self, one, Sides};
use oracle_memchr::sums;
use oracle_memchr_preflight::{preflight, Stream};

pub const BIND: Sides = Sides {
    rust: |lent| one(sums::bind(&lent.bytes, lent.pointer_size)),
    ..sides::BIND
};

pub const BIND_STEPS: Sides = Sides {
    rust: BIND.rust,
    ..sides::BIND_STEPS
};

pub const JUDGE_BIND: Sides = Sides {
    rust: |lent| {
        preflight(
            Stream::Plain,
            &lent.bytes,
            lent.pointer_size.into(),
            &lent.sizes,
        )
    },
    ..sides::JUDGE_BIND
};

pub const TRIE: Sides = Sides {
    rust: |lent| one(sums::trie(&lent.bytes)),
    ..sides::TRIE
};

pub const IMPORT_STEPS: Sides = Sides {
    rust: |lent| one(sums::imports(&lent.bytes)),
    ..sides::IMPORT_STEPS
};
