//! What the source of the crate says of what it gives to others.

use std::fs;
use std::path::Path;

/// The lines of every file of the source, in the order of the files.
fn source() -> Vec<String> {
    let folder = Path::new(env!("CARGO_MANIFEST_DIR")).join("src");
    let entries = fs::read_dir(&folder).expect("the source");
    let mut files: Vec<_> = entries.map(|entry| entry.expect("a file").path()).collect();
    files.sort();
    let texts = files
        .iter()
        .map(|file| fs::read_to_string(file).expect("a text"));
    texts
        .flat_map(|text| text.lines().map(str::to_string).collect::<Vec<_>>())
        .collect()
}

/// What stands above a line: its comments and attributes.
fn above(lines: &[String], index: usize) -> String {
    let before = lines[..index].iter().rev().take_while(|line| {
        let line = line.trim_start();
        line.starts_with("///") || line.starts_with("#[")
    });
    before.map(|line| format!("{line}\n")).collect()
}

/// A function's signature, up to its body.
fn signature(lines: &[String], index: usize) -> String {
    let mut signature = String::new();
    for line in &lines[index..] {
        signature += line.trim();
        if line.ends_with('{') {
            break;
        }
    }
    signature
}

#[test]
fn every_function_that_can_fail_says_when() {
    let lines = source();
    let mut failing = 0;
    for (index, line) in lines.iter().enumerate() {
        let line = line.trim_start();
        if !line.starts_with("pub fn ") && !line.starts_with("fn try_from(") {
            continue;
        }
        if signature(&lines, index).contains("-> Result<") {
            failing += 1;
            let said = above(&lines, index);
            assert!(said.contains("/// # Errors\n"), "{line}");
        }
    }
    // The starts of rebases, binds, exports, segments, fixups and imports; a name; a number.
    assert_eq!(failing, 1 + 3 + 2 + 1 + 1 + 1 + 1 + 1);
}

/// The attribute stands above the declaration.
fn has(lines: &[String], declaration: &str, attribute: &str) {
    let index = lines
        .iter()
        .position(|line| line.trim_start().starts_with(declaration))
        .expect(declaration);
    assert!(above(lines, index).contains(attribute), "{declaration}");
}

#[test]
fn what_may_come_to_have_more_says_so() {
    let lines = source();
    for declaration in [
        "pub enum Refusal {",
        "pub enum Error {",
        "pub struct Rebase {",
        "pub struct Bind<",
        "pub struct Export<",
        "pub enum Target<",
        "pub struct Segment {",
        "pub struct Fixup {",
        "pub enum Patch {",
        "pub struct Import<",
    ] {
        has(&lines, declaration, "#[non_exhaustive]\n");
    }
}

#[test]
fn what_a_gate_could_drop_says_so() {
    let lines = source();
    for declaration in [
        "pub enum Verdict {",
        "pub struct Progress<",
        "pub enum Found<",
        "pub struct Rebases<",
        "pub struct Binds<",
        "pub struct Exports<",
        "pub struct Segments<",
        "pub struct Fixups<",
        "pub struct Imports<",
    ] {
        has(&lines, declaration, "#[must_use = ");
    }
}
