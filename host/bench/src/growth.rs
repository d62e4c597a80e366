//! How costs grow: one kind of input at three sizes, n, 4n and 16n.

use crate::lent::Lent;
use crate::row::Row;
use crate::sides::{self, Sides};
use crate::timing::Times;
use crate::{chains, streams, tries};

pub struct Growth {
    pub what: &'static str,
    /// n, and of what.
    pub least: u64,
    pub unit: &'static str,
    pub rows: [Row; 3],
}

impl Growth {
    fn new(
        what: &'static str,
        (least, unit): (u64, &'static str),
        sides: Sides,
        lent: impl Fn(u64) -> Lent,
    ) -> Result<Growth, String> {
        let row = |size| Row::new(format!("{what}, {size} {unit}"), lent(size), sides);
        Ok(Growth {
            what,
            least,
            unit,
            rows: [row(least)?, row(4 * least)?, row(16 * least)?],
        })
    }
}

/// The power of the size that the time grows as, from the first size to the last.
pub fn exponent(times: [f64; 3]) -> f64 {
    (times[2] / times[0]).ln() / 16f64.ln()
}

/// The times of one side, of all three sizes.
pub fn ours(times: &[Times; 3]) -> [f64; 3] {
    times.map(|times| times.ours)
}

pub fn rust(times: &[Times; 3]) -> Option<[f64; 3]> {
    let [Some(first), Some(second), Some(third)] = times.map(|times| times.rust) else {
        return None;
    };
    Some([first, second, third])
}

pub fn all() -> Result<Vec<Growth>, String> {
    let inside = walks()?.into_iter();
    Ok(inside.chain(boundary()?).chain(preflights()?).collect())
}

fn walks() -> Result<[Growth; 5], String> {
    let exports = |exports| Lent::bytes(tries::trie(&[exports as usize / 400, 20, 20]));
    Ok([
        Growth::new(
            "rebase walk, many operations",
            (250, "blocks"),
            sides::REBASE,
            |blocks| Lent::bytes(streams::rebases(blocks)),
        )?,
        Growth::new(
            "rebase walk, one repeat",
            (62_500, "places"),
            sides::REBASE,
            |places| Lent::bytes(streams::repeat(places)),
        )?,
        Growth::new(
            "bind walk, with names",
            (2000, "names"),
            sides::BIND,
            |names| Lent::bytes(streams::binds(names)),
        )?,
        Growth::new("trie walk", (6000, "exports"), sides::TRIE, exports)?,
        Growth::new("page walk", (4, "pages"), sides::PAGES, |pages| {
            chains::pages(pages as u16)
        })?,
    ])
}

fn boundary() -> Result<[Growth; 2], String> {
    let segments = |count| chains::segments(count as usize);
    let imports = |count| chains::imports(count as usize);
    Ok([
        Growth::new(
            "segment walk, through the C boundary",
            (64, "segments"),
            sides::SEGMENT_STEPS,
            segments,
        )?,
        Growth::new(
            "import walk, through the C boundary",
            (1000, "imports"),
            sides::IMPORT_STEPS,
            imports,
        )?,
    ])
}

fn preflights() -> Result<[Growth; 3], String> {
    Ok([
        Growth::new(
            "rebase preflight, many operations",
            (250, "blocks"),
            sides::JUDGE_REBASE,
            |blocks| Lent::judged(streams::rebases(blocks)),
        )?,
        Growth::new(
            "rebase preflight, one repeat",
            (62_500, "places"),
            sides::JUDGE_REBASE,
            |places| Lent::judged(streams::repeat(places)),
        )?,
        Growth::new(
            "bind preflight, with names",
            (2000, "names"),
            sides::JUDGE_BIND,
            |names| Lent::judged(streams::binds(names)),
        )?,
    ])
}
