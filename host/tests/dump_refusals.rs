//! The program `dump`: each refusal by its number and words, and the places that it tells.

mod common;

use common::lines::{refused, refused_records, refused_segment, FIXUPS, S1_LINES, S2_LINE};
use common::program::listed;
use common::{
    chain, contents, long_name, one_segment, record, sample, u32s, with_imports, with_starts, S1,
    S2, S4,
};

// ---- refusals

#[test]
fn each_refusal_has_its_number_and_words() {
    let (fixups, zeros) = (one_segment(2, 1, &[]), [0; 8]);
    let outside = one_segment(2, 1, &[1]); // the bytes 1 to 9 of eight
    let unversioned = u32s(&[1, 0, 0, 0, 0, 0, 0]);
    let packed = u32s(&[0, 0, 0, 0, 0, 1, 1]);
    let unended = with_imports(1, 1, &u32s(&[0]), b"a");
    let (deep, long) = (chain(257), long_name(65_537));
    let sizes = format!("preflight rebase 8 FILE{}", " 0".repeat(17));
    let samples: [(u64, &str, &[&[u8]]); 20] = [
        (1, "rebase 7 FILE", &[S1]),
        (2, "rebase 8 FILE", &[b"\x90"]),
        (3, "rebase 8 FILE", &[b"\x20\x80"]),
        (4, "bind 8 FILE", &[b"\x20\x80\x80\x80\x80\x08"]), // 2^31
        (5, "rebase 8 FILE", &[S4]),
        (6, "rebase 8 FILE", &[b"\x20\x00\x51"]),
        (7, "bind 8 FILE", &[b"\x70\x00\x51\x90"]),
        (8, "bind 8 FILE", &[b"\x70\x00\x51\x11\x90"]),
        (9, "segments FILE", &[b""]),
        (10, "segments FILE", &[&unversioned]),
        (11, "imports FILE", &[&packed]),
        (12, "fixups FILE 0 FILE 0", &[&fixups, &zeros]),
        (13, "fixups FILE 0 FILE 0", &[&outside, &zeros]),
        (14, "imports FILE", &[&unended]),
        (15, "exports FILE", &[b""]),
        (16, "exports FILE", &[b"\x00\x01a\x00\x00"]), // an edge to the root
        (17, "exports FILE", &[&deep]),
        (18, "exports FILE", &[&long]),
        // 19 is for states, of which a command has none.
        (20, "preflight rebase 8 FILE 0 0 39", &[S1]),
        (21, &sizes, &[S1]),
    ];
    for (number, command, files) in samples {
        let (place, index) = match number {
            6 => (2, 0), // where its operation starts
            7 => (3, 0),
            8 => (4, 0),
            14 => (32, 0), // where its record is
            20 => (3, 2),  // as in P1
            _ => (0, 0),
        };
        assert_eq!(listed(command, files), refused(number, place, index));
    }
}

#[test]
fn pointer_sizes_are_4_and_8() {
    // The last byte of 256 + 8 and of 2^32 + 8 is 8.
    for size in [
        "0",
        "16",
        "264",
        "300",
        "4294967304",
        "18446744073709551615",
    ] {
        for kind in ["rebase", "bind", "weak", "lazy"] {
            let command = format!("{kind} {size} FILE");
            assert_eq!(listed(&command, &[S1]), refused(1, 0, 0), "{command}");
        }
        let command = format!("preflight rebase {size} FILE 0");
        assert_eq!(listed(&command, &[S1]), refused(1, 0, 0), "{command}");
    }
}

#[test]
fn a_preflight_has_16_sizes_up_to_2_to_the_62() {
    let of = |sizes: &[&str]| {
        let command = format!("preflight rebase 8 FILE {}", sizes.join(" "));
        listed(&command, &[S1])
    };
    assert_eq!(of(&["40"; 16]), "pass  operations 4\n");
    assert_eq!(of(&["40"; 17]), refused(21, 0, 0));
    assert_eq!(of(&["40"; 20]), refused(21, 0, 0));
    assert_eq!(
        of(&["0", "0", "4611686018427387904"]),
        "pass  operations 4\n"
    );
    assert_eq!(of(&["0", "0", "4611686018427387905"]), refused(21, 0, 0));
}

#[test]
fn a_preflight_without_sizes_has_no_place_inside() {
    // S1 has its first place at byte 3; a type alone has none.
    assert_eq!(listed("preflight rebase 8 FILE", &[S1]), refused(20, 3, 0));
    assert_eq!(
        listed("preflight rebase 8 FILE", &[b"\x11"]),
        "pass  operations 1\n"
    );
}

#[test]
fn each_kind_of_stream_has_its_preflight() {
    // A name, segment 2 at 8, and, at byte 5, a bind: a weak stream has type and library set, a lazy
    // one the type, a plain one neither. In a rebase stream it adds 0, repeats 0 times, and at byte 3
    // there is a place.
    let judged = |kind| {
        let command = format!("preflight {kind} 8 FILE 0 0 16");
        listed(&command, &[b"\x40a\0\x72\x08\x90"])
    };
    assert_eq!(judged("weak"), "pass  operations 3\n");
    assert_eq!(judged("lazy"), refused(7, 5, 0));
    assert_eq!(judged("bind"), refused(6, 5, 0));
    assert_eq!(judged("rebase"), refused(5, 3, 0));
}

// ---- where a walk is refused

#[test]
fn a_stream_is_refused_where_its_operation_starts() {
    // 90 is no operation of a rebase stream: in S1 for Done, behind three places, and before any place.
    let text = S1_LINES.to_string() + &refused(2, 4, 3);
    assert_eq!(listed("rebase 8 FILE", &[b"\x11\x22\x10\x53\x90"]), text);
    assert_eq!(
        listed("rebase 8 FILE", &[b"\x11\x22\x10\x90"]),
        refused(2, 3, 0)
    );
}

#[test]
fn a_bind_stream_is_refused_likewise() {
    // Threaded binds, d0, are refused: behind S2, and before any place.
    let text = S2_LINE.to_string() + &refused(2, 9, 1);
    assert_eq!(listed("bind 8 FILE", &[&[S2, b"\xd0"].concat()]), text);
    assert_eq!(listed("bind 8 FILE", &[b"\x11\x51\xd0"]), refused(2, 2, 0));
    // The place of a plain stream lacks a type, at byte 5; that of a lazy one a library.
    let stream = b"\x40a\0\x72\x08\x90";
    assert_eq!(listed("bind 8 FILE", &[stream]), refused(6, 5, 0));
    assert_eq!(listed("lazy 8 FILE", &[stream]), refused(7, 5, 0));
}

#[test]
fn behind_a_place_beyond_all_segments_it_is_where_the_walk_stood() {
    // Type 1; segment 0 at 2^63; one place; and at byte 13, where the next call begins to read, type 0, and
    // then 90, which is no operation.
    let stream = b"\x11\x20\x80\x80\x80\x80\x80\x80\x80\x80\x80\x01\x51\x10\x90";
    let first = "rebase  segment  0  offset 0x8000000000000000  type  1\n";
    let text = first.to_string() + &refused(2, 13, 1);
    assert_eq!(listed("rebase 8 FILE", &[stream]), text);
}

#[test]
fn an_import_is_refused_at_its_record() {
    // The second record would be at 36, where there are three bytes more.
    let fixups = with_imports(1, 2, &u32s(&[1 | 1 << 9]), b"\0a\0");
    let first = "import       0  library     1  weak 0  addend                    0  name \"a\"\n";
    let text = first.to_string() + &refused(14, 36, 1);
    assert_eq!(listed("imports FILE", &[&fixups]), text);
}

/// Chained fixups of four segments, of which the first has a record, at 28 + 20. That of the third
/// would be beyond the data.
fn third_is_faulty() -> Vec<u8> {
    with_starts(&[20, 0, 1000, 0], &record(2, 1, &[8]))
}

/// The first of its segments.
const FIRST: &str = "\
segment       0  offset 0x0000000000004000  format     2  page 0x1000  pages     1  \
limit 0x00000000  starts       1  place      70
";

#[test]
fn a_refused_segment_has_a_line_and_the_last_line_tells_of_it() {
    let text = "\
segment       2  refused  number 9  name \"chained fixups do not fit their bytes\"
refused  number 9  place 28  index 2  records 1  name \"chained fixups do not fit their bytes\"
";
    assert_eq!(
        listed("segments FILE", &[&third_is_faulty()]),
        FIRST.to_string() + text
    );
}

#[test]
fn behind_a_refused_segment_the_others_are_listed() {
    // Of six segments the first and the fifth would have their records beyond the data, the others but
    // the fourth share one, at 28 + 28, whose starts are at 78.
    let fixups = with_starts(&[1000, 28, 28, 0, 1000, 28], &record(2, 1, &[8]));
    let listed_as = |index: usize| {
        let index = format!("segment {index:>7}  ");
        FIRST
            .replace("segment       0  ", &index)
            .replace("70", "78")
    };
    let text = [
        refused_segment(0),
        listed_as(1),
        listed_as(2),
        refused_segment(4),
        listed_as(5),
        refused_records(28, 0, 2),
    ];
    assert_eq!(listed("segments FILE", &[&fixups]), text.concat());
}

#[test]
fn a_cut_list_of_segments_tells_of_those_that_are_refused() {
    // The second of three records would be beyond the data.
    let fixups = with_starts(&[16, 1000, 16], &record(2, 1, &[8]));
    let first = FIRST.replace("70", "66");
    let cut = |max| listed(&format!("segments FILE --max {max}"), &[&fixups]);
    assert_eq!(cut(0), "cut  items 0\n");
    assert_eq!(cut(1), first.clone() + "cut  items 1\n");
    let text = first + &refused_segment(1) + &refused_records(28, 1, 1);
    assert_eq!(cut(2), text);
    assert_eq!(cut(3), listed("segments FILE", &[&fixups]));
}

#[test]
fn the_fixups_of_a_refused_segment_are_refused_as_it_is() {
    let files = [&third_is_faulty()[..], &contents()];
    assert_eq!(listed("fixups FILE 2 FILE 0", &files), refused(9, 28, 2));
}

#[test]
fn a_start_is_refused_at_0() {
    // No header, and one of version 1.
    for (number, fixups) in [(9, vec![]), (10, u32s(&[1, 0, 0, 0, 0, 0, 0]))] {
        for command in ["segments FILE", "imports FILE", "fixups FILE 5 FILE 0"] {
            let files = [&fixups[..], &contents()];
            assert_eq!(listed(command, &files), refused(number, 0, 0), "{command}");
        }
    }
}

#[test]
fn a_pointer_format_is_refused_at_0() {
    let fixups = with_starts(&[0, 0, 16], &record(7, 1, &[8]));
    let files = [&fixups[..], &contents()];
    assert_eq!(listed("fixups FILE 2 FILE 0", &files), refused(11, 0, 0));
}

#[test]
fn a_fixup_is_refused_where_its_pointer_is_due() {
    // The rebase at 8 leads to 16, where the segment ends.
    let rebase = FIXUPS.split_inclusive('\n').next().expect("a line");
    let text = rebase.to_string() + &refused(13, 16, 1);
    let files = [&sample()[..], &contents()[..16]];
    assert_eq!(listed("fixups FILE 1 FILE 0x1000", &files), text);
}

#[test]
fn a_fixup_is_refused_at_the_last_page_where_none_is_due() {
    // Of three pages the first has no chain, the second one at 4, and the third has no start.
    let fixups = one_segment(6, 3, &[0xffff, 4]);
    let first = "rebase  offset 0x0000000000001004  target 0x0000000000000000\n";
    let text = first.to_string() + &refused(12, 0x1000, 1);
    let files = [&fixups[..], &[0; 0x2000]];
    assert_eq!(listed("fixups FILE 0 FILE 0", &files), text);
}

#[test]
fn a_child_is_refused_at_an_edge_of_the_innermost_open_node() {
    // The root exports 5, and its edges, at 4 and 7, lead to an empty node and back to the root. One
    // call reads both: it began at the first.
    let root =
        "export  flags 0x00  address 0x0000000000000005  resolver                  -  name \"\"\n";
    let trie = b"\x02\x00\x05\x02a\x00\x0ab\x00\x00\x00\x00";
    assert_eq!(
        listed("exports FILE", &[trie]),
        root.to_string() + &refused(16, 4, 1)
    );
    // `a`, at 5, exports 5; its edge, at 9, leads back to it.
    let below = root.replace("\"\"", "\"a\"");
    let trie = b"\x00\x01a\x00\x05\x02\x00\x05\x01b\x00\x05";
    assert_eq!(listed("exports FILE", &[trie]), below + &refused(16, 9, 1));
}

#[test]
fn a_node_whose_subtree_is_listed_is_not_open() {
    // `a`, at 8, exports 5, and has no child; `b`, whose edge is at 5, leads back to the root.
    let first =
        "export  flags 0x00  address 0x0000000000000005  resolver                  -  name \"a\"\n";
    let trie = b"\x00\x02a\x00\x08b\x00\x00\x02\x00\x05\x00";
    assert_eq!(
        listed("exports FILE", &[trie]),
        first.to_string() + &refused(16, 5, 1)
    );
}
