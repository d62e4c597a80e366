//! Times the library beside the crate object 0.40.0 and a plain preflight in Rust, over the same
//! bytes, and prints docs/BENCHMARKS.md. Both sides are compared first: where they differ nothing
//! is timed, and there is no page.
//!
//! With the word `times` it prints the ratios alone, for a page on which they stand beside those of a
//! later library.

mod chains;
mod curves;
mod growth;
mod laps;
mod lent;
mod markdown;
mod memchr;
mod page;
mod row;
mod sides;
mod slower;
mod steps;
mod streams;
mod tables;
mod timing;
mod tries;
mod was;

use std::env;
use std::process::ExitCode;
use tables::Table;
use timing::Times;

fn timed(tables: Vec<Table>) -> Vec<page::Timed> {
    let timed = tables.into_iter().map(|table| {
        eprintln!("timed: {}", table.title);
        let times = table.rows.iter().map(Times::of).collect();
        (table, times)
    });
    timed.collect()
}

fn grown(growths: Vec<growth::Growth>) -> Vec<page::Grown> {
    let grown = growths.into_iter().map(|growth| {
        eprintln!("timed at three sizes: {}", growth.what);
        let times = growth.rows.each_ref().map(Times::of);
        (growth, times)
    });
    grown.collect()
}

fn run(words: &[String]) -> Result<String, String> {
    let (was, tables, growths) = (was::Was::told()?, tables::all()?, growth::all()?);
    if oracle::LIVE {
        let rows = tables.iter().flat_map(|table| &table.rows);
        let grown = growths.iter().flat_map(|growth| &growth.rows);
        rows.chain(grown).try_for_each(row::Row::compare)?;
    }
    match words {
        [] => Ok(page::page(&timed(tables), &grown(growths), was.as_ref())),
        [word] if word == "times" => Ok(was::lines(&timed(tables))),
        _ => Err("usage: bench [times]".to_string()),
    }
}

fn main() -> ExitCode {
    let words: Vec<String> = env::args().skip(1).collect();
    match run(&words) {
        Ok(page) => {
            print!("{page}");
            ExitCode::SUCCESS
        }
        Err(text) => {
            eprintln!("bench: {text}");
            ExitCode::from(1)
        }
    }
}
