//! The tables: which inputs are put to which sides.

use crate::lent::Lent;
use crate::row::Row;
use crate::sides::{self, Sides};
use crate::{chains, memchr, streams, tries};

pub struct Table {
    pub title: &'static str,
    /// What the library does, and what the Rust does.
    pub ours: &'static str,
    pub rust: &'static str,
    /// What the times are for one of.
    pub unit: &'static str,
    pub rows: Vec<Row>,
}

const MILLION: u64 = 1_000_000;

type Named = (&'static str, Vec<u8>);

fn many_operations() -> Named {
    ("rebase, many operations", streams::rebases(1000))
}

fn one_repeat() -> Named {
    (
        "rebase, one repeat of a million places",
        streams::repeat(MILLION),
    )
}

/// A million places each.
fn million_rebases() -> [Named; 5] {
    [
        (
            "rebase, a thousand repeats of a thousand places",
            streams::long_repeats(1000),
        ),
        ("rebase, a million `51`", streams::ones(MILLION as usize)),
        (
            "rebase, a million `70` with a gap of one byte",
            streams::gaps(MILLION),
        ),
        (
            "rebase, a million `70` with a gap of two bytes",
            streams::long_gaps(MILLION),
        ),
        (
            "rebase, a million single places, mixed",
            streams::mixed(MILLION),
        ),
    ]
}

fn with_names() -> Named {
    ("bind, with names", streams::binds(8000))
}

fn million_binds() -> Named {
    ("bind, a million `90`", streams::nineties(MILLION as usize))
}

fn small_trie() -> Named {
    ("exports trie, 3,000 exports", tries::trie(&[100, 30]))
}

fn large_trie() -> Named {
    (
        "exports trie, 100,000 exports",
        tries::trie(&[100, 100, 10]),
    )
}

fn walked(sides: Sides) -> impl Fn(Named) -> Result<Row, String> {
    move |(what, bytes)| Row::new(what, Lent::bytes(bytes), sides)
}

fn judged(sides: Sides) -> impl Fn(Named) -> Result<Row, String> {
    move |(what, bytes)| Row::new(what, Lent::judged(bytes), sides)
}

fn page_chains(sides: Sides) -> Result<Row, String> {
    Row::new("page chains", chains::pages(4), sides)
}

fn imports(what: &'static str, sides: Sides) -> Result<Row, String> {
    Row::new(what, chains::imports(4000), sides)
}

/// Those for which the Rust is at hand.
pub fn all() -> Result<Vec<Table>, String> {
    let mut tables = vec![inside()?, through()?, preflights()?];
    if oracle::LIVE {
        tables.push(visits()?);
    }
    if oracle_memchr::MEMCHR {
        tables.push(with_memchr()?);
    }
    Ok(tables)
}

fn inside() -> Result<Table, String> {
    let rebases = [many_operations(), one_repeat()].into_iter();
    let rebases = rebases.chain(million_rebases()).map(walked(sides::REBASE));
    let binds = [with_names(), million_binds()].map(walked(sides::BIND));
    let tries = [small_trie(), large_trie()].map(walked(sides::TRIE));
    let pages = page_chains(sides::PAGES);
    let rows = rebases.chain(binds).chain(tries).chain([pages]);
    Ok(Table {
        title: "Walks, as loops inside the library",
        ours: "A loop inside the library (crates/laps, an archive of its own) calls a walk again \
               and again.",
        rust: "The Rust walks by the crate's own iterators.",
        unit: "items",
        rows: rows.collect::<Result<_, _>>()?,
    })
}

fn through() -> Result<Table, String> {
    let rebases = [many_operations(), one_repeat()].map(walked(sides::REBASE_STEPS));
    let bind = walked(sides::BIND_STEPS)(with_names());
    let tries = [small_trie(), large_trie()].map(walked(sides::TRIE_STEPS));
    let segments = chains::segments(256);
    let chained = [
        page_chains(sides::PAGE_STEPS),
        Row::new("segments of chained fixups", segments, sides::SEGMENT_STEPS),
        imports("imports of chained fixups", sides::IMPORT_STEPS),
    ];
    let streams = rebases.into_iter().chain([bind]);
    let rows = streams.chain(tries).chain(chained);
    Ok(Table {
        title: "Walks, step by step through the C boundary",
        ours: "Each item is a call from outside, with state and item as bytes.",
        rust: "The Rust walks as before.",
        unit: "items",
        rows: rows.collect::<Result<_, _>>()?,
    })
}

fn preflights() -> Result<Table, String> {
    let rebases = [many_operations(), one_repeat()].into_iter();
    let judge = judged(sides::JUDGE_REBASE);
    let rebases = rebases.chain(million_rebases()).map(judge);
    let binds = [with_names(), million_binds()].map(judged(sides::JUDGE_BIND));
    Ok(Table {
        title: "Preflights",
        ours: "Each is one call through the C boundary.",
        rust:
            "The Rust is a plain preflight (host/oracle/src/plain.rs), which reads operations by \
               the crate's own parser and judges a long repeat by one division.",
        unit: "operations",
        rows: rebases.chain(binds).collect::<Result<_, _>>()?,
    })
}

fn visits() -> Result<Table, String> {
    let rebases = [many_operations(), one_repeat()].map(judged(sides::VISIT_REBASE));
    let bind = judged(sides::VISIT_BIND)(with_names());
    let rows = rebases.into_iter().chain([bind]);
    Ok(Table {
        title: "Preflights, against a walk to every place",
        ours: "The library is called as before.",
        rust: "The Rust walks by the crate's own iterators, through all places of a repeat, too.",
        unit: "operations",
        rows: rows.collect::<Result<_, _>>()?,
    })
}

fn with_memchr() -> Result<Table, String> {
    let bind = |what| (what, with_names().1);
    let rows = [
        walked(memchr::BIND)(bind("bind, with names, inside the library")),
        walked(memchr::BIND_STEPS)(bind("bind, with names, through the C boundary")),
        judged(memchr::JUDGE_BIND)(bind("bind, with names, preflight")),
        walked(memchr::TRIE)(("exports trie, inside the library", small_trie().1)),
        imports("imports, through the C boundary", memchr::IMPORT_STEPS),
    ];
    Ok(Table {
        title: "Where the Rust has memchr",
        ours: "The library is called as in the tables above.",
        rust:
            "The published crate finds the end of a string by the crate memchr. So does the Rust \
               in this table, by rustc's own build of it.",
        unit: "items or operations",
        rows: rows.into_iter().collect::<Result<_, _>>()?,
    })
}
