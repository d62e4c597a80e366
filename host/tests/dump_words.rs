//! The program `dump`: the numbers of a command, and the most items that it lists.

mod common;

use common::lines::{refused, FIXUPS, S1_LINES};
use common::program::listed;
use common::{contents, record, sample, with_starts, S1, S3, S4, SHARED};

// ---- the most items

/// S1 with so many items at most.
fn s1_max(max: &str) -> String {
    listed(&format!("rebase 8 FILE --max {max}"), &[S1])
}

#[test]
fn a_listing_is_cut_where_there_is_more() {
    let two: String = S1_LINES.split_inclusive('\n').take(2).collect();
    assert_eq!(s1_max("2"), two + "cut  items 2\n");
    assert_eq!(s1_max("0"), "cut  items 0\n");
}

#[test]
fn a_listing_ends_where_there_is_no_more() {
    let text = [S1_LINES, "end  items 3\n"].concat();
    for max in ["3", "4", "18446744073709551615"] {
        assert_eq!(s1_max(max), text, "{max}");
    }
    assert_eq!(listed("rebase 8 FILE --max 0", &[S3]), "end  items 0\n");
}

#[test]
fn a_refusal_is_no_item() {
    let command = "rebase 8 FILE --max 0";
    assert_eq!(listed(command, &[S4]), refused(5, 0, 0));
}

#[test]
fn every_listing_can_be_cut() {
    // Library 1; `a`; type 1; segment 2 at 8; two binds.
    let binds = b"\x11\x40a\0\x51\x72\x08\x90\x90";
    let (fixups, segments, contents) = (
        sample(),
        with_starts(&[12, 12], &record(2, 1, &[8])),
        contents(),
    );
    let commands: [(&str, &[&[u8]]); 7] = [
        ("bind 8 FILE", &[binds]),
        ("weak 8 FILE", &[binds]),
        ("lazy 8 FILE", &[binds]),
        ("exports FILE", &[SHARED]),
        ("imports FILE", &[&fixups]),
        ("segments FILE", &[&segments]),
        ("fixups FILE 1 FILE 0", &[&fixups, &contents]),
    ];
    for (command, files) in commands {
        let whole = listed(command, files);
        let [first, _, "end  items 2"] = whole.lines().collect::<Vec<_>>()[..] else {
            panic!("{command}: {whole}");
        };
        let cut = listed(&format!("{command} --max 1"), files);
        assert_eq!(cut, format!("{first}\ncut  items 1\n"), "{command}");
    }
}

#[test]
fn a_repeat_is_cut_however_long() {
    // Type 1; segment 2 at 16; 2^64 - 1 times.
    let stream = b"\x11\x22\x10\x60\xff\xff\xff\xff\xff\xff\xff\xff\xff\x01";
    let text = "\
rebase  segment  2  offset 0x0000000000000010  type  1
rebase  segment  2  offset 0x0000000000000018  type  1
cut  items 2
";
    assert_eq!(listed("rebase 8 FILE --max 2", &[stream]), text);
}

#[test]
fn the_most_items_stand_anywhere() {
    let cut = "rebase  segment  2  offset 0x0000000000000010  type  1\ncut  items 1\n";
    for command in [
        "--max 1 rebase 8 FILE",
        "rebase --max 1 8 FILE",
        "rebase 8 --max 1 FILE",
        "rebase 8 FILE --max 0x1",
    ] {
        assert_eq!(listed(command, &[S1]), cut, "{command}");
    }
}

// ---- numbers

#[test]
fn pointer_sizes_are_written_in_either_way() {
    let text = [S1_LINES, "end  items 3\n"].concat();
    for size in ["0x8", "0x0008", "08"] {
        let command = format!("rebase {size} FILE");
        assert_eq!(listed(&command, &[S1]), text, "{size}");
    }
    for size in ["0xc", "0xC"] {
        let command = format!("rebase {size} FILE");
        assert_eq!(listed(&command, &[S1]), refused(1, 0, 0), "{size}");
    }
}

#[test]
fn sizes_are_written_in_either_way() {
    // One place of eight bytes at 0xa2, up to 0xaa.
    let stream = b"\x11\x20\xa2\x01\x51";
    for size in ["170", "0xaa", "0xAA", "0xaA", "0x4000000000000000"] {
        let command = format!("preflight rebase 8 FILE {size}");
        assert_eq!(
            listed(&command, &[stream]),
            "pass  operations 3\n",
            "{size}"
        );
    }
    for size in ["169", "0xa9", "0xA9"] {
        let command = format!("preflight rebase 8 FILE {size}");
        assert_eq!(listed(&command, &[stream]), refused(20, 4, 0), "{size}");
    }
}

#[test]
fn indexes_are_written_in_either_way() {
    // Of eleven segments the last has a record.
    let mut offsets = [0; 11];
    offsets[10] = 48;
    let fixups = with_starts(&offsets, &record(2, 1, &[8]));
    let text = [FIXUPS, "end  items 2\n"].concat();
    for index in ["10", "0xa", "0xA"] {
        let command = format!("fixups FILE {index} FILE 0x1000");
        assert_eq!(listed(&command, &[&fixups, &contents()]), text, "{index}");
    }
}

#[test]
fn bases_are_written_in_either_way() {
    // 0x1234 less 0xabc; and less 2^64 - 1, which is one more.
    let bases = [
        ("2748", "0778"),
        ("0xabc", "0778"),
        ("0xABC", "0778"),
        ("18446744073709551615", "1235"),
        ("0xffffffffffffffff", "1235"),
        ("0xFFFFffffFFFFffff", "1235"),
    ];
    for (base, target) in bases {
        let command = format!("fixups FILE 1 FILE {base} --max 1");
        let line = "rebase  offset 0x0000000000000008  target 0x560000000000";
        let text = format!("{line}{target}\ncut  items 1\n");
        assert_eq!(listed(&command, &[&sample(), &contents()]), text, "{base}");
    }
}
