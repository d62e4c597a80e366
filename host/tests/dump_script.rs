//! The script `dump`: its exit status, standard input, and what it takes to run the program.

mod common;

use common::lines::{refused, S1_LINES};
use common::program::{dump, dump_with, listed, start, Folder, Said, DUMP};
use common::{contents, hanging, sample, S1, S4};
use std::env;
use std::fs::{self, File};
use std::io::{BufRead, BufReader};
use std::os::unix::fs::symlink;
use std::path::{Path, PathBuf};

// ---- the exit status

#[test]
fn the_status_is_told_by_the_last_line() {
    let commands: [(&str, &[u8], &str, i32); 8] = [
        ("rebase 8 FILE", S1, "end", 0),
        ("rebase 8 FILE --max 1", S1, "cut", 0),
        ("preflight rebase 8 FILE 0 0 40", S1, "pass", 0),
        ("preflight rebase 8 FILE 0 0 39", S1, "refused", 1),
        ("rebase 8 FILE", S4, "refused", 1),
        // Three places and then what is no operation.
        ("rebase 8 FILE", b"\x11\x22\x10\x53\x90", "refused", 1),
        ("rebase 7 FILE", S1, "refused", 1),
        ("segments FILE", b"", "refused", 1),
    ];
    for (command, file, word, status) in commands {
        let said = dump(command, &[file]);
        let last = said.out.lines().last().expect("a line");
        assert_eq!(last.split(' ').next(), Some(word), "{command}: {last}");
        assert_eq!(said.status, status, "{command}: {last}");
    }
}

#[test]
fn a_trie_that_is_not_listed_to_its_end_is_2() {
    let said = dump("exports FILE", &[&hanging()]);
    let line = "spent  items 0  nodes 16777216\n";
    assert_eq!((said.out.as_str(), said.status), (line, 2));
}

#[test]
fn what_could_not_be_done_is_2() {
    for command in [
        "rebase 8 MISSING",
        "rebase 8 FOLDER",
        "rebase eight FILE",
        "rebase 8",
        "exprots FILE",
        "rebase 8 FILE --max",
    ] {
        let said = dump(command, &[S1]);
        assert_eq!((&said.out[..], said.status), ("", 2), "{command}");
        assert_ne!(said.err, "", "{command}");
    }
}

#[test]
fn a_name_that_reads_like_a_last_line_tells_nothing() {
    // S2 with other names, and then what is no operation.
    for name in ["end  items 1", "pass  operations 4", "\nend  items 1"] {
        let stream = [b"\x11\x40", name.as_bytes(), b"\0\x51\x72\x08\x90\xd0"].concat();
        assert_eq!(dump("bind 8 FILE", &[&stream]).status, 1, "{name:?}");
    }
}

/// Type 1; segment 2 at 16; 2^64 - 1 places.
const ENDLESS: &[u8] = b"\x11\x22\x10\x60\xff\xff\xff\xff\xff\xff\xff\xff\xff\x01";

#[test]
fn what_is_listed_streams_and_ends_where_nobody_reads_on() {
    let folder = Folder::new();
    let words = ["rebase".into(), "8".into(), folder.file("stream", ENDLESS)];
    let mut child = start(Path::new(DUMP), &words).spawn().expect("a run");
    let out = child.stdout.take().expect("a pipe");
    // The first lines come though there is no last one, and the run ends when the pipe is closed.
    let lines: Vec<String> = BufReader::new(out).lines().take(3).flatten().collect();
    assert_eq!(lines.join("\n") + "\n", S1_LINES);
    let said = Said::by(child);
    assert_eq!((&said.err[..], said.status), ("", 2));
}

#[test]
fn what_cannot_be_written_is_not_good() {
    let folder = Folder::new();
    let words = ["rebase".into(), "8".into(), folder.file("stream", S1)];
    let full = File::options().write(true).open("/dev/full");
    let mut command = start(Path::new(DUMP), &words);
    command.stdout(full.expect("a device that is full"));
    let said = Said::by(command.spawn().expect("a run"));
    assert_eq!(said.status, 2);
    assert_ne!(said.err, "");
}

// ---- standard input

#[test]
fn a_file_may_be_standard_input() {
    let text = [S1_LINES, "end  items 3\n"].concat();
    let said = dump_with("rebase 8 -", &[], S1);
    assert_eq!((said.out, said.err, said.status), (text, String::new(), 0));
    let said = dump_with("preflight rebase 8 - 0 0 39", &[], S1);
    assert_eq!((said.out, said.status), (refused(20, 3, 2), 1));
    let said = dump_with("rebase 8 -", &[], b"");
    assert_eq!((&said.out[..], said.status), ("end  items 0\n", 0));
}

#[test]
fn either_file_of_a_command_may_be_standard_input_but_not_both() {
    let (fixups, segment) = (sample(), contents());
    let text = listed("fixups FILE 1 FILE 0", &[&fixups, &segment]);
    let said = dump_with("fixups - 1 FILE 0", &[&segment], &fixups);
    assert_eq!((&said.out, said.status), (&text, 0));
    let said = dump_with("fixups FILE 1 - 0", &[&fixups], &segment);
    assert_eq!((&said.out, said.status), (&text, 0));
    let said = dump("fixups - 1 - 0", &[]);
    assert_eq!((&said.out[..], said.status), ("", 2));
    let lines: Vec<&str> = said.err.lines().collect();
    let usage = "usage: dump fixups FILE INDEX SEGMENT_FILE BASE";
    assert_eq!(lines, ["dump: only one FILE may be -", usage]);
}

#[test]
fn commands_read_standard_input_alike() {
    let fixups = sample();
    for command in [
        "exports", "segments", "imports", "bind 8", "weak 8", "lazy 8",
    ] {
        let said = dump_with(&format!("{command} -"), &[], &fixups);
        let text = dump(&format!("{command} FILE"), &[&fixups]);
        assert_eq!(said, text, "{command}");
    }
}

// ---- the kit

/// The first program of a name on the PATH.
fn found(name: &str) -> PathBuf {
    let path = env::var_os("PATH").expect("a PATH");
    let mut places = env::split_paths(&path).map(|folder| folder.join(name));
    places.find(|place| place.exists()).expect("a program")
}

/// What the script says in a folder of its own, where a PATH has all that it takes but `rt`.
fn without_the_kit(folder: &Folder) -> Said {
    let (script, tools) = (folder.0.join("dump"), folder.0.join("tools"));
    fs::copy(DUMP, &script).expect("a copy of the script");
    fs::create_dir(&tools).expect("a folder");
    for tool in ["bash", "dirname", "readlink", "uname", "awk"] {
        symlink(found(tool), tools.join(tool)).expect("a link");
    }
    let mut command = start(&script, &["--version".into()]);
    command.env("PATH", &tools);
    Said::by(command.spawn().expect("a run"))
}

#[test]
fn where_the_kit_is_missing_that_is_said() {
    let said = without_the_kit(&Folder::new());
    assert_eq!((&said.out[..], said.status), ("", 2));
    let line = said.err.strip_suffix('\n').expect("a line");
    assert!(line.starts_with("dump: ") && !line.contains('\n'), "{line}");
    for word in ["not built", "kit", "missing", "PATH"] {
        assert!(line.contains(word), "{line}");
    }
}

#[test]
fn a_program_that_is_built_is_run_where_its_processor_is_there() {
    let folder = Folder::new();
    let bin = folder.0.join("crates/dump/out");
    fs::create_dir_all(&bin).expect("a folder");
    let program = Path::new(DUMP).with_file_name("crates/dump/out/dump");
    fs::copy(program, bin.join("dump")).expect("a copy of the program");
    let said = without_the_kit(&folder);
    if said.status == 0 {
        assert!(said.out.starts_with("dump 4.0.0\n"), "{}", said.out);
    } else {
        // On another processor it takes an emulator, and the kit's loader.
        let line = said.err.strip_suffix('\n').expect("a line");
        assert!(line.starts_with("dump: ") && !line.contains('\n'), "{line}");
        assert!(line.contains("emulator") && line.contains("kit"), "{line}");
        assert_eq!((&said.out[..], said.status), ("", 2));
    }
}
