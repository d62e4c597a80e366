//! The program `dump` where a command is none, or its files cannot be read.

mod common;

use common::program::{complaint, complaints, dump, run};
use common::{contents, sample, S1};

/// A file is wrong, for a reason. It is named by its path, of which this is the last part.
fn wrong(command: &str, files: &[&[u8]], name: &str, reason: &str) {
    let line = complaint(command, files);
    let told = line.strip_prefix("dump: ").unwrap_or_default();
    let (about, why) = told.split_once(": ").unwrap_or((told, ""));
    assert!(
        about == name || about.ends_with(&format!("/{name}")),
        "{command}: {line}"
    );
    assert!(why.contains(reason), "{command}: {line}");
}

/// How the commands are used, as README has it.
const USAGES: [&str; 6] = [
    "dump rebase|bind|weak|lazy POINTER_SIZE FILE",
    "dump preflight rebase|bind|weak|lazy POINTER_SIZE FILE [SIZE...]",
    "dump exports FILE",
    "dump segments FILE",
    "dump imports FILE",
    "dump fixups FILE INDEX SEGMENT_FILE BASE",
];

/// That of the command with this word.
fn usage(word: &str) -> String {
    let of_word = |usage: &&&str| {
        let words = usage.split(' ').nth(1).expect("a word");
        words.split('|').any(|other| other == word)
    };
    format!("usage: {}", USAGES.iter().find(of_word).expect("a usage"))
}

/// A command is wrong, which is said, and how it is used.
fn misused(command: &str, what: &str, word: &str) {
    let lines = complaints(command, &[&sample(), &contents()]);
    assert_eq!(lines, [format!("dump: {what}"), usage(word)], "{command}");
}

/// All usages, and what they have in common.
fn is_all(lines: &[&str]) {
    assert_eq!(lines.len(), 9, "{lines:?}");
    assert_eq!(lines[0], format!("usage: {}", USAGES[0]));
    for (line, usage) in lines[1..6].iter().zip(&USAGES[1..]) {
        assert_eq!(*line, format!("       {usage}"));
    }
    let common = lines[6..].concat();
    for word in ["0x", "--max", "--raw", " -,"] {
        assert!(common.contains(word), "{word}: {common}");
    }
}

#[test]
fn without_words_the_commands_are_listed() {
    for words in [&[][..], &["--max", "1"], &["--raw"], &["--max"]] {
        let words: Vec<_> = words.iter().map(|word| word.into()).collect();
        let said = run(&words);
        assert_eq!((&said.out[..], said.status), ("", 2), "{words:?}");
        is_all(&said.err.lines().collect::<Vec<_>>());
    }
}

#[test]
fn help_lists_the_commands_too_and_is_good() {
    for command in [
        "--help",
        "rebase --help",
        "exports MISSING --help",
        "plain --help --version",
    ] {
        let said = dump(command, &[]);
        assert_eq!((&said.err[..], said.status), ("", 0), "{command}");
        let lines: Vec<&str> = said.out.lines().collect();
        let (last, all) = lines.split_last().expect("lines");
        is_all(all);
        for status in ["0 ", "1 ", "2 "] {
            assert!(last.contains(status), "{last}");
        }
    }
}

#[test]
fn the_version_is_followed_by_the_formats() {
    for command in ["--version", "exports --version"] {
        let said = dump(command, &[]);
        assert_eq!((&said.err[..], said.status), ("", 0), "{command}");
        let lines: Vec<&str> = said.out.lines().collect();
        let [version, formats] = lines[..] else {
            panic!("two lines: {lines:?}");
        };
        assert_eq!(version, "dump 4.0.0");
        for word in ["rebase", "bind", "weak", "lazy", "tries", "chained fixups"] {
            assert!(formats.contains(word), "{word}: {formats}");
        }
        for formats_of in ["pointer formats 2, 3 and 6", "import formats 1, 2 and 3"] {
            assert!(formats.contains(formats_of), "{formats}");
        }
    }
}

#[test]
fn too_few_words() {
    for command in [
        "rebase",
        "rebase 8",
        "bind 8",
        "weak 8",
        "lazy 8",
        "preflight",
        "preflight rebase 8",
        "exports",
        "segments",
        "imports",
        "fixups FILE 1",
        "fixups FILE 1 FILE",
    ] {
        let word = command.split(' ').next().expect("a word");
        misused(command, "too few words", word);
    }
}

#[test]
fn a_word_too_many_is_named() {
    for command in [
        "rebase 8 FILE",
        "lazy 8 FILE",
        "exports FILE",
        "segments FILE",
        "imports FILE",
        "fixups FILE 1 FILE 0",
    ] {
        let word = command.split(' ').next().expect("a word");
        for more in ["0", "--min 0"] {
            let first = more.split(' ').next().expect("a word");
            misused(
                &format!("{command} {more}"),
                &format!("one word too many, \"{first}\""),
                word,
            );
        }
    }
}

#[test]
fn what_is_no_command_is_named() {
    for word in ["exprots", "plain", "Rebase", "rebases", "--min", "-", ""] {
        for command in [format!("{word} 8 FILE"), format!("{word} --max 8x")] {
            let lines = complaints(&command, &[S1]);
            let lines: Vec<&str> = lines.iter().map(String::as_str).collect();
            assert_eq!(lines[0], format!("dump: no command \"{word}\""));
            is_all(&lines[1..]);
        }
    }
}

#[test]
fn what_is_no_kind_of_stream_is_named() {
    for word in ["plain", "exports", ""] {
        misused(
            &format!("preflight {word} 8 FILE 0"),
            &format!("no kind of stream \"{word}\""),
            "preflight",
        );
    }
}

const NO_NUMBERS: [&str; 13] = [
    "eight",
    "",
    "8x",
    "x8",
    "0x",
    "0x8g",
    "0X8",
    "-1",
    "+8",
    "a",
    "8.0",
    "18446744073709551616",
    "0x10000000000000000",
];

#[test]
fn what_is_no_pointer_size_is_named() {
    for word in NO_NUMBERS {
        misused(
            &format!("rebase {word} FILE"),
            &format!("pointer size \"{word}\" is no number"),
            "rebase",
        );
    }
}

#[test]
fn what_is_no_number_is_named_wherever_it_stands() {
    let commands = [
        ("bind 8x FILE", "pointer size"),
        ("preflight rebase 8x FILE 40", "pointer size"),
        ("preflight rebase 8 FILE 8x", "size"),
        ("preflight rebase 8 FILE 0 0 8x 0", "size"),
        ("fixups FILE 8x FILE 0", "index"),
        ("fixups FILE 1 FILE 8x", "base"),
        ("rebase 8 FILE --max 8x", "--max"),
        ("exports FILE --max 8x", "--max"),
    ];
    for (command, what) in commands {
        let word = command.split(' ').next().expect("a word");
        misused(command, &format!("{what} \"8x\" is no number"), word);
    }
    misused(
        "--max 8x rebase 8 FILE",
        "--max \"8x\" is no number",
        "rebase",
    );
}

#[test]
fn what_is_no_most_of_items_is_named() {
    for word in NO_NUMBERS {
        misused(
            &format!("rebase 8 FILE --max {word}"),
            &format!("--max \"{word}\" is no number"),
            "rebase",
        );
    }
}

#[test]
fn a_number_is_missing_behind_max() {
    misused("rebase 8 FILE --max", "--max lacks its number", "rebase");
}

// ---- files

#[test]
fn a_file_that_is_not_there() {
    let commands = [
        "rebase 8 MISSING",
        "preflight rebase 8 MISSING 0",
        "exports MISSING",
        "segments MISSING",
        "imports MISSING",
        "fixups MISSING 1 FILE 0",
        "fixups FILE 1 MISSING 0",
    ];
    for command in commands {
        wrong(
            command,
            &[&sample()],
            "missing",
            "No such file or directory",
        );
    }
}

#[test]
fn a_folder_is_no_file() {
    for command in [
        "rebase 8 FOLDER",
        "exports FOLDER",
        "fixups FILE 1 FOLDER 0",
    ] {
        let line = complaint(command, &[&sample()]);
        assert!(
            line.starts_with("dump: ") && line.ends_with(": Is a directory"),
            "{line}"
        );
    }
}

#[test]
fn files_that_are_too_large() {
    let (large, half) = (vec![0; 8 << 20], vec![0; 4 << 20]);
    let reason = "larger than the room";
    for command in ["rebase 8 FILE", "exports FILE"] {
        wrong(command, &[&large], "first", reason);
    }
    // Two files share the room.
    wrong("fixups FILE 1 FILE 0", &[&half, &half], "second", reason);
}

#[test]
fn a_segment_without_fixups() {
    // Of three segments the second has fixups.
    for index in ["0", "2", "3", "18446744073709551615"] {
        let command = format!("fixups FILE {index} FILE 0");
        let files = [&sample()[..], &contents()];
        wrong(
            &command,
            &files,
            index,
            "no segment of this index has fixups",
        );
    }
}
