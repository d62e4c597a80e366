//! Compares the reader with the crate object 0.40.0, and its preflight with a plain one in Rust.
//!
//! - `compare fuzz CASES [SEED]` puts cases to both.
//! - `compare record FILE` writes cases with the crate's answers.
//! - `compare replay FILE` puts recorded cases to the reader alone.

mod boundaries;
mod case;
mod damage;
mod exhaustive;
mod fuzz;
mod gen_fixups;
mod gen_repeats;
mod gen_streams;
mod gen_tries;
mod hex;
mod judge;
mod made_states;
mod ours;
mod ours_trie;
mod preflight;
mod random;
mod record;
mod records;
mod samples;
mod sections;
mod starts;
mod states;
mod tally;
mod three;
mod trie_reading;

use std::env;
use std::process::ExitCode;

const USAGE: &str = "usage: compare fuzz CASES [SEED] | record FILE | replay FILE";

fn number(text: &str) -> Result<u64, String> {
    text.parse().map_err(|_| format!("{text} is no number"))
}

fn run(arguments: &[&str]) -> Result<bool, String> {
    match *arguments {
        ["fuzz", cases] => Ok(fuzz::fuzz(number(cases)?, 1)),
        ["fuzz", cases, seed] => Ok(fuzz::fuzz(number(cases)?, number(seed)?)),
        ["record", file] => {
            println!("{}", record::record(file)?);
            Ok(true)
        }
        ["replay", file] => record::replay(file),
        _ => Err(USAGE.to_string()),
    }
}

fn main() -> ExitCode {
    let arguments: Vec<String> = env::args().skip(1).collect();
    let arguments: Vec<&str> = arguments.iter().map(String::as_str).collect();
    match run(&arguments) {
        Ok(true) => ExitCode::SUCCESS,
        Ok(false) => ExitCode::from(1),
        Err(text) => {
            eprintln!("{text}");
            ExitCode::from(2)
        }
    }
}
