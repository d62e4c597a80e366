//! The program `dump`, handed a Mach-O file for a stream.

mod common;

use common::lines::refused;
use common::program::{complaint, dump, listed};
use common::{contents, sample};

/// How Mach-O files begin, of 32 and of 64 bits, in either order of bytes.
const THIN: [[u8; 4]; 4] = [
    0xfeed_face_u32.to_be_bytes(),
    0xfeed_face_u32.to_le_bytes(),
    0xfeed_facf_u32.to_be_bytes(),
    0xfeed_facf_u32.to_le_bytes(),
];

/// How fat files do, which have their numbers with the highest byte first.
const FAT: [[u8; 4]; 2] = [0xcafe_babe_u32.to_be_bytes(), 0xcafe_babf_u32.to_be_bytes()];

/// The one line about a Mach-O file says what it is, what is read instead, and what to do.
fn is_told(command: &str, files: &[&[u8]], name: &str, what: &str, words: &[&str]) {
    let line = complaint(command, files);
    let told = line.strip_prefix("dump: ").unwrap_or_default();
    let (about, rest) = told.split_once(" is a ").unwrap_or((told, ""));
    assert!(about.ends_with(name), "{command}: {line}");
    assert!(rest.starts_with(&format!("{what}, ")), "{command}: {line}");
    for word in words.iter().chain(&["bare bytes", "--raw"]) {
        assert!(rest.contains(word), "{command}: {line}");
    }
}

const OF_STREAM: [&str; 3] = [
    "LC_DYLD_INFO_ONLY",
    "LC_DYLD_EXPORTS_TRIE",
    "LC_DYLD_CHAINED_FIXUPS",
];

#[test]
fn a_mach_o_file_is_told_as_such() {
    for magic in THIN {
        let file = [&magic[..], &[0; 28]].concat();
        is_told("exports FILE", &[&file], "first", "Mach-O file", &OF_STREAM);
    }
    for magic in FAT {
        let file = [&magic[..], &[0; 28]].concat();
        let what = "fat file of Mach-O files";
        is_told("exports FILE", &[&file], "first", what, &OF_STREAM);
    }
}

#[test]
fn every_command_tells_of_it() {
    let file = THIN[3];
    for command in [
        "rebase 8 FILE",
        "bind 8 FILE",
        "weak 8 FILE",
        "lazy 8 FILE",
        "preflight rebase 8 FILE 0",
        "segments FILE",
        "imports FILE",
        "fixups FILE 1 FILE 0",
    ] {
        let files = [&file[..], &contents()];
        is_told(command, &files, "first", "Mach-O file", &OF_STREAM);
    }
    let files = [&sample()[..], &file];
    let words = ["a segment", "LC_SEGMENT_64"];
    is_told(
        "fixups FILE 1 FILE 0",
        &files,
        "second",
        "Mach-O file",
        &words,
    );
}

#[test]
fn it_is_told_even_if_it_does_not_fit_the_room() {
    let mut file = vec![0; 8 << 20];
    file[..4].copy_from_slice(&THIN[3]);
    is_told("exports FILE", &[&file], "first", "Mach-O file", &OF_STREAM);
}

#[test]
fn raw_reads_it_as_it_is() {
    // Of a trie these bytes are the size of the root's data, which does not fit; of chained fixups the
    // version; and ce is no operation of a rebase stream.
    let file = [&THIN[1][..], &[0; 28]].concat();
    for command in [
        "--raw exports FILE",
        "exports --raw FILE",
        "exports FILE --raw",
    ] {
        assert_eq!(listed(command, &[&file]), refused(15, 0, 0), "{command}");
    }
    assert_eq!(listed("segments FILE --raw", &[&file]), refused(10, 0, 0));
    assert_eq!(listed("rebase 8 FILE --raw", &[&file]), refused(2, 0, 0));
    // A segment that begins so, with what else it has.
    let segment = [&THIN[3][..], &contents()[4..]].concat();
    let files = [&sample()[..], &segment];
    let text = listed("fixups FILE 1 FILE 0", &[&sample(), &contents()]);
    assert_eq!(listed("fixups FILE 1 FILE 0 --raw", &files), text);
}

#[test]
fn what_only_begins_alike_is_read() {
    // The first three bytes alone; another fourth byte; and the fat magic in the other order.
    for file in [&THIN[3][..3], b"\xcf\xfa\xed\xff", b"\xbe\xba\xfe\xca", b""] {
        let said = dump("segments FILE", &[file]);
        assert_eq!((said.out, said.status), (refused(9, 0, 0), 1), "{file:?}");
    }
}
