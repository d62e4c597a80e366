//! The program `dump`, run on files that are written for it.

use std::fs;
use std::io::Write;
use std::path::{Path, PathBuf};
use std::process::{self, Child, Command, Stdio};
use std::sync::atomic::{AtomicU64, Ordering};
use std::{env, iter};

/// Runs the program, on the emulator where it takes one.
pub const DUMP: &str = concat!(env!("CARGO_MANIFEST_DIR"), "/../dump");

/// The names of the files of a command, in their order.
const NAMES: [&str; 2] = ["first", "second"];

/// What a run has said, and its exit status.
#[derive(Debug, PartialEq, Eq)]
pub struct Said {
    pub out: String,
    pub err: String,
    pub status: i32,
}

impl Said {
    /// What a run has said that is left to end by itself.
    pub fn by(child: Child) -> Said {
        let output = child.wait_with_output().expect("a run that ends");
        let text = |bytes: Vec<u8>| String::from_utf8(bytes).expect("text");
        Said {
            out: text(output.stdout),
            err: text(output.stderr),
            status: output.status.code().expect("an exit status"),
        }
    }
}

/// A folder for the files of one run, and gone with it.
pub struct Folder(pub PathBuf);

impl Folder {
    pub fn new() -> Folder {
        static MADE: AtomicU64 = AtomicU64::new(0);
        let number = MADE.fetch_add(1, Ordering::Relaxed);
        let name = format!("brinetrellis-dump-{}-{number}", process::id());
        let path = env::temp_dir().join(name);
        fs::create_dir_all(&path).expect("a folder");
        Folder(path)
    }

    pub fn file(&self, name: &str, bytes: &[u8]) -> PathBuf {
        let path = self.0.join(name);
        fs::write(&path, bytes).expect("a file");
        path
    }
}

impl Drop for Folder {
    fn drop(&mut self) {
        let _ = fs::remove_dir_all(&self.0);
    }
}

/// A run of a script like `dump`, whose standard input is a pipe, and what it says, too.
pub fn start(script: &Path, words: &[PathBuf]) -> Command {
    let mut command = Command::new(script);
    command.args(words);
    command.stdin(Stdio::piped());
    command.stdout(Stdio::piped());
    command.stderr(Stdio::piped());
    // Where the tests run on an emulator, this variable names code for the emulated processor.
    command.env_remove("LD_PRELOAD");
    command
}

/// What the program says to some words, with these bytes for standard input.
pub fn run_with(words: &[PathBuf], input: &[u8]) -> Said {
    let mut child = start(Path::new(DUMP), words)
        .spawn()
        .expect("the program dump");
    let mut pipe = child.stdin.take().expect("a pipe");
    // Nobody may read them.
    let _ = pipe.write_all(input);
    drop(pipe);
    Said::by(child)
}

/// What the program says to some words.
pub fn run(words: &[PathBuf]) -> Said {
    run_with(words, b"")
}

/// What the program says to a command. In it each word FILE stands for a file of the next bytes,
/// MISSING for a file that is not there, and FOLDER for a folder.
pub fn dump(command: &str, files: &[&[u8]]) -> Said {
    dump_with(command, files, b"")
}

/// The same, with these bytes for standard input.
pub fn dump_with(command: &str, files: &[&[u8]], input: &[u8]) -> Said {
    let folder = Folder::new();
    let mut files = iter::zip(NAMES, files);
    let words: Vec<PathBuf> = command
        .split(' ')
        .map(|word| match word {
            "FILE" => {
                let (name, bytes) = files.next().expect("bytes for each file");
                folder.file(name, bytes)
            }
            "MISSING" => folder.0.join("missing"),
            "FOLDER" => folder.0.clone(),
            word => Path::new(word).to_path_buf(),
        })
        .collect();
    run_with(&words, input)
}

/// What a command lists, on standard output. Nothing is wrong with it, and its status is told by the
/// first word of its last line.
pub fn listed(command: &str, files: &[&[u8]]) -> String {
    let said = dump(command, files);
    assert_eq!(said.err, "", "{command}");
    assert_eq!(said.status, status(&said.out), "{command}: {}", said.out);
    said.out
}

fn status(listing: &str) -> i32 {
    let last = listing.lines().last().unwrap_or_default();
    match last.split(' ').next() {
        Some("end" | "cut" | "pass") => 0,
        Some("refused") => 1,
        _ => 2,
    }
}

/// What is wrong with a command, on standard error: one line. Nothing is listed.
pub fn complaint(command: &str, files: &[&[u8]]) -> String {
    let [line] = &complaints(command, files)[..] else {
        panic!("{command}: not one line");
    };
    line.to_string()
}

/// The same, in lines.
pub fn complaints(command: &str, files: &[&[u8]]) -> Vec<String> {
    let said = dump(command, files);
    assert_eq!(said.out, "", "{command}");
    assert_eq!(said.status, 2, "{command}: {}", said.err);
    assert!(said.err.ends_with('\n'), "{command}: {:?}", said.err);
    said.err.lines().map(str::to_string).collect()
}
