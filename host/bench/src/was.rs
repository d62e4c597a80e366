//! The ratios of an earlier library, as this program printed them when it was linked with that one.

use crate::markdown::short;
use crate::page::Timed;
use crate::tables::Table;
use std::{env, fs};

/// A line for each row: its table and its name, and the ratio.
pub fn lines(tables: &[Timed]) -> String {
    let rows = tables.iter().flat_map(|(table, times)| {
        let rows = table.rows.iter().zip(times);
        rows.filter_map(|(row, times)| {
            let ratio = times.ratio()?;
            Some(format!("{}\t{}\n", key(table, &row.what), short(ratio)))
        })
    });
    rows.collect()
}

fn key(table: &Table, what: &str) -> String {
    format!("{}: {what}", table.title)
}

/// The lines of the file BRINETRELLIS_WAS, and what BRINETRELLIS_WAS_NAME calls that library.
pub struct Was {
    pub name: String,
    lines: String,
}

impl Was {
    /// Nothing where no file is named.
    pub fn told() -> Result<Option<Was>, String> {
        let Ok(file) = env::var("BRINETRELLIS_WAS") else {
            return Ok(None);
        };
        let lines = fs::read_to_string(&file).map_err(|error| format!("{file}: {error}"))?;
        let name = env::var("BRINETRELLIS_WAS_NAME").unwrap_or("an earlier library".to_string());
        Ok(Some(Was { name, lines }))
    }

    /// The ratio of a row, if it was there.
    pub fn ratio(&self, table: &Table, what: &str) -> &str {
        let key = key(table, what);
        let mut pairs = self.lines.lines().filter_map(|line| line.split_once('\t'));
        let pair = pairs.find(|(row, _)| *row == key);
        pair.map_or("-", |(_, ratio)| ratio)
    }
}
