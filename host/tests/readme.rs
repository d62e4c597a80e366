//! The documents show the examples as they are compiled, and the usage and the sample as `dump` prints them.

mod common;

use common::program::{run, run_with, Folder};
use std::path::PathBuf;

const README: &str = include_str!("../../README.md");
const API: &str = include_str!("../../docs/API.md");
const DUMP: &str = include_str!("../../docs/DUMP.md");

/// Whether a text stands in a document as a block of code.
fn shows(document: &str, text: &str) -> bool {
    let block: String = text
        .lines()
        .map(|line| match line {
            "" => "\n".to_string(),
            line => format!("    {line}\n"),
        })
        .collect();
    document.contains(&format!("\n\n{block}\n"))
}

#[test]
fn the_examples_are_those_that_are_compiled() {
    assert!(shows(API, include_str!("../examples/walk.c")));
    assert!(shows(API, include_str!("../examples/walk.rs")));
}

/// A line of the sample as README shows it: `..` stands for flags and addend.
fn narrowed(line: &str) -> String {
    match (line.find("  flags "), line.find("  name ")) {
        (Some(from), Some(to)) => format!("{}  ..{}\n", &line[..from], &line[to..]),
        _ => format!("{line}\n"),
    }
}

#[test]
fn the_sample_is_the_one_that_is_run() {
    let sample = include_str!("../../crates/dump/stdout").lines();
    assert!(shows(README, &sample.map(narrowed).collect::<String>()));
    let command = include_str!("../../crates/dump/args");
    let words: Vec<&str> = command.lines().collect();
    let [kind, size, file] = words[..] else {
        panic!("three words: {words:?}");
    };
    assert!(README.contains(&format!(
        "\n    ./dump {kind} {size} crates/dump/data/{file} "
    )));
}

#[test]
fn the_usage_is_the_programs() {
    let usage = run(&[]).err;
    let commands: String = usage
        .lines()
        .filter_map(|line| {
            line.strip_prefix("usage: ")
                .or(line.strip_prefix("       "))
        })
        .map(|line| format!("{line}\n"))
        .collect();
    assert_eq!(commands.lines().count(), 6, "{usage}");
    assert!(shows(DUMP, &commands), "{commands}");
}

/// The bytes that printf writes of a text like '\x11\x22'.
fn printed(text: &str) -> Vec<u8> {
    let digits = text.trim_matches('\'').split("\\x").skip(1);
    digits
        .map(|byte| u8::from_str_radix(byte, 16).expect("two digits"))
        .collect()
}

#[test]
fn what_readme_shows_is_what_is_printed() {
    let start = README.find("    $ printf ").expect("a transcript");
    let transcript = README[start..].split("\n\n").next().expect("a block");
    let mut steps = transcript.split("    $ ").skip(1);
    let first = steps.next().expect("a file is written").trim();
    let (bytes, file) = first
        .strip_prefix("printf ")
        .and_then(|words| words.split_once(" > "))
        .expect("printf BYTES > FILE");
    let folder = Folder::new();
    let path = folder.file(file, &printed(bytes));
    let mut tried = 0;
    for step in steps {
        let (command, shown) = step
            .split_once('\n')
            .expect("a command, and what it prints");
        let words = command
            .strip_prefix("./dump ")
            .expect("a run of dump")
            .split(' ');
        let words = words.map(|word| match word == file {
            true => path.clone(),
            false => PathBuf::from(word),
        });
        let said = run_with(&words.collect::<Vec<_>>(), b"");
        let shown: String = shown
            .lines()
            .map(|line| format!("{}\n", line.trim_start()))
            .collect();
        assert_eq!(said.out, shown, "{command}");
        tried += 1;
    }
    assert_eq!(tried, 3);
}
