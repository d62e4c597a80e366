//! Which rows are slower than the Rust, and by how much at most.

use crate::markdown::{bullet, paragraph, short};
use crate::page::Timed;

struct Slow<'a> {
    what: &'a str,
    ratio: f64,
}

/// The rows of a table whose ratio is printed above 1.
fn slow((table, times): &Timed) -> Vec<Slow<'_>> {
    let rows = table.rows.iter().zip(times);
    let ratios = rows.filter_map(|(row, times)| {
        let what = &row.what;
        times.ratio().map(|ratio| Slow { what, ratio })
    });
    ratios
        .filter(|row| (100.0 * row.ratio).round() > 100.0)
        .collect()
}

fn most<'a>(rows: &'a [Slow<'a>]) -> Option<&'a Slow<'a>> {
    rows.iter().max_by(|a, b| a.ratio.total_cmp(&b.ratio))
}

/// A sentence on all tables, and one on each.
pub fn text(tables: &[Timed]) -> [String; 2] {
    let all: Vec<Slow> = tables.iter().flat_map(slow).collect();
    let rows: usize = tables.iter().map(|(table, _)| table.rows.len()).sum();
    let most = match most(&all) {
        Some(row) => format!(", at most {} times as long: {}", short(row.ratio), row.what),
        None => String::new(),
    };
    let sentence = format!(
        "The library takes longer than the Rust in {} of {rows} rows, those whose ratio is printed \
         above 1.00{most}.",
        all.len()
    );
    let each = tables.iter().map(|table| bullet(&of_table(table)));
    [paragraph(&sentence), each.collect()]
}

fn of_table(timed: &Timed) -> String {
    let (slow, table) = (slow(timed), &timed.0);
    let (title, rows) = (table.title, table.rows.len());
    match most(&slow) {
        Some(row) => format!(
            "{title}: in {} of {rows} rows, at most {} times as long: {}.",
            slow.len(),
            short(row.ratio),
            row.what
        ),
        None => format!("{title}: in none of {rows} rows."),
    }
}
