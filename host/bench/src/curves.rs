//! The table of how costs grow, and its largest exponents.

use crate::growth::{exponent, ours, rust};
use crate::markdown::{paragraph, table, whole};
use crate::page::Grown;

const HEADS: [&str; 10] = [
    "what",
    "n",
    "ours: n, ns",
    "4n, ns",
    "16n, ns",
    "exponent",
    "Rust: n, ns",
    "4n, ns",
    "16n, ns",
    "exponent",
];

const MEANING: &str = "\
    Nanoseconds of the whole at three sizes, n, 4n and 16n. The exponent is ln(t / s) / ln 16, \
    where s is the time at n and t the time at 16n: 1 where the time grows as the size does, 0 \
    where it stays the same.";

pub fn text(growths: &[Grown]) -> [String; 3] {
    let rows = growths.iter().map(|(growth, times)| {
        let n = format!("{} {}", whole(growth.least), growth.unit);
        let mut row = vec![growth.what.to_string(), n];
        row.extend(cells(ours(times)));
        row.extend(rust(times).into_iter().flat_map(cells));
        row
    });
    let heads = if oracle::LIVE {
        &HEADS[..]
    } else {
        &HEADS[..6]
    };
    [
        paragraph(MEANING),
        table(heads, rows),
        paragraph(&largest(growths)),
    ]
}

fn cells(times: [f64; 3]) -> Vec<String> {
    let mut cells = times.map(|time| whole(time.round() as u64)).to_vec();
    cells.push(rounded(exponent(times)));
    cells
}

/// With two digits behind the point; added to 0, what is rounded to 0 from below has no sign.
fn rounded(exponent: f64) -> String {
    format!("{:.2}", (100.0 * exponent).round() / 100.0 + 0.0)
}

/// The largest exponent of each side.
fn largest(growths: &[Grown]) -> String {
    let most = |side: fn(&Grown) -> Option<[f64; 3]>| {
        let exponents = growths.iter().filter_map(|grown| {
            let times = side(grown)?;
            Some((exponent(times), grown.0.what))
        });
        let (exponent, what) = exponents.max_by(|a, b| a.0.total_cmp(&b.0))?;
        Some(format!("{} ({what})", rounded(exponent)))
    };
    let library = most(|(_, times)| Some(ours(times))).expect("there are rows");
    match most(|(_, times)| rust(times)) {
        Some(rust) => {
            format!("The largest exponent of the library is {library}, of the Rust {rust}.")
        }
        None => format!("The largest exponent is {library}."),
    }
}
