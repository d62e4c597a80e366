//! The page.

use crate::growth::Growth;
use crate::markdown::{bullet, paragraph, short, table, whole};
use crate::tables::Table;
use crate::timing::{Times, ROUNDS};
use crate::was::Was;
use crate::{curves, slower};
use std::env;

/// A table with the times of its rows, and what was timed at three sizes.
pub type Timed = (Table, Vec<Times>);
pub type Grown = (Growth, [Times; 3]);

const LIBRARY: &str = "\
    The library's archives are compiled for this machine by the kit's clang, at level 3 \
    (`.ci/archive`). Times are in nanoseconds, for an item of a walk or an operation of a \
    preflight.";

const RUST: &str = "\
    Beside the library stands the Rust, over the same bytes in one run: the crate object 0.40.0, \
    and a plain preflight over its parser of operations. Its walks, its visits of every place and \
    its plain preflight have a copy of the crate each. In a round both sides take turns. The ratio \
    is ours to the Rust's: below 1 the library is faster.";

const COMPARED: &str = "\
    Both sides answered the same in every row before anything was timed: the sum of one number of \
    each item, or the verdict of a preflight. A verdict was compared with segments in which all \
    places are inside, with the smallest that pass, with one byte less, and with a 64th of that: \
    its number, and in full where the Rust is a preflight, too.";

const NO_MEMCHR: &str = "\
    Rows in which the Rust finds the end of a string by the crate memchr, as the published crate \
    does, are left out: rustc's own build of it could not be taken.";

const SUMS: &str = "\
    In a loop one number of each item is used, on both sides, so either compiler may leave out \
    what makes the others.";

const REPEATS: &str = "\
    A preflight steps through none of the places of a long repeat, the plain one in Rust neither.";

const STRINGS: &str = "\
    The Rust finds the end of a string byte by byte, except in rows that are said to have memchr.";

/// Its parts, with an empty line between them.
pub fn page(tables: &[Timed], growths: &[Grown], was: Option<&Was>) -> String {
    let mut parts = vec!["# Benchmarks\n".to_string(), paragraph(&told())];
    parts.extend(method().iter().map(|text| paragraph(text)));
    parts.extend(was.map(|was| paragraph(&before(was))));
    parts.extend(tables.iter().flat_map(|table| section(table, was)));
    if oracle::LIVE && !oracle_memchr::MEMCHR {
        parts.push(paragraph(NO_MEMCHR));
    }
    if oracle::LIVE {
        parts.push(heading("Where the library is slower"));
        parts.extend(slower::text(tables));
    }
    parts.push(heading("How the costs grow"));
    parts.extend(curves::text(growths));
    if oracle::LIVE {
        parts.push(heading("Remarks"));
        parts.push([SUMS, REPEATS, STRINGS].map(bullet).concat());
    }
    parts.join("\n")
}

fn heading(title: &str) -> String {
    format!("## {title}\n")
}

/// What is not measured but told.
fn told() -> String {
    let told = |variable| match env::var(variable) {
        Ok(text) if !text.is_empty() => text,
        _ => "not told".to_string(),
    };
    format!(
        "This page is what `.ci/host bench` prints. Machine: {}. Date: {}. Kit of the library: {}. \
         Compiler of the Rust: {}.",
        told("BRINETRELLIS_MACHINE"),
        told("BRINETRELLIS_DATE"),
        told("BRINETRELLIS_KIT"),
        env!("BENCH_RUSTC")
    )
}

fn method() -> Vec<String> {
    let best = format!("{LIBRARY} Each is the best of {ROUNDS} rounds.");
    if oracle::LIVE {
        let compiled = env!("BENCH_COMPILED");
        let rust = format!("{RUST} The Rust is compiled {compiled}.");
        return vec![best, rust, COMPARED.to_string()];
    }
    let missing = oracle::MISSING;
    vec![
        best,
        format!("The library stands alone: the Rust is not at hand, for want of {missing}."),
    ]
}

fn before(was: &Was) -> String {
    format!(
        "The column 'was' has the ratios of {}, from a program of its own that ran right before this one.",
        was.name
    )
}

fn section((of, times): &Timed, was: Option<&Was>) -> [String; 3] {
    let rows = of.rows.iter().zip(times).map(|(row, times)| {
        let each = |time: f64| short(time / row.items as f64);
        let mut cells = vec![row.what.clone(), whole(row.items), each(times.ours)];
        cells.extend(times.rust.map(each));
        cells.extend(times.ratio().map(short));
        cells.extend(was.map(|was| was.ratio(of, &row.what).to_string()));
        cells
    });
    let mut heads = vec!["what", of.unit, "ours, ns"];
    let mut text = of.ours.to_string();
    if oracle::LIVE {
        heads.extend(["Rust, ns", "ratio"]);
        text = format!("{text} {}", of.rust);
    }
    heads.extend(was.map(|_| "was"));
    [heading(of.title), paragraph(&text), table(&heads, rows)]
}
