//! The refusal number that each error text of the crate stands for.

use crate::glue::{number_failed, Error};

/// The number of an error; 0 for a text that is not known here, which no refusal has.
pub fn number(error: Error) -> u64 {
    match error.0 {
        "Unsupported Mach-O rebase opcode" | "Unsupported Mach-O bind opcode" => 2,
        "Invalid Mach-O rebase operation" | "Invalid Mach-O bind operation" => 3,
        "Invalid Mach-O bind ordinal" => 4,
        "Missing Mach-O rebase segment and offset" | "Missing Mach-O bind segment and offset" => 5,
        "Missing Mach-O rebase type" | "Missing Mach-O bind type" => 6,
        "Missing Mach-O bind dylib" => 7,
        "Missing Mach-O bind symbol" => 8,
        "Invalid exports trie child offset" if number_failed() => 15,
        "Invalid exports trie child offset" => 16,
        text if text.contains("xports trie") => 15,
        text => chained(text),
    }
}

fn chained(text: &str) -> u64 {
    match text {
        "Invalid Mach-O chained fixups header"
        | "Invalid Mach-O chained starts offset or count"
        | "Invalid Mach-O chained starts in segment" => 9,
        "Unsupported Mach-O chained fixups version" => 10,
        "Unsupported Mach-O chained fixups compressed symbols"
        | "Unsupported Mach-O chained fixups import format"
        | "Unsupported Mach-O chained pointer format" => 11,
        "Invalid Mach-O chained fixup page count" | "Invalid Mach-O chained fixup chain index" => {
            12
        }
        "Invalid Mach-O chained fixup offset" => 13,
        "Invalid Mach-O chained fixups imports offset"
        | "Invalid Mach-O chained fixups symbols offset"
        | "Invalid Mach-O chained fixups import"
        | "Invalid Mach-O chained fixups import name offset" => 14,
        _ => 0,
    }
}
