//! The program `dump`: what it prints of the documented cases, and of bytes made by hand.

mod common;

use common::lines::{self, refused, FIXUPS, S1_LINES, S2_LINE};
use common::program::listed;
use common::{
    contents, long_name, record, sample, u32s, u64s, with_imports, with_starts, S1, S2, S3, S4,
    SHARED,
};

// ---- the documented cases

#[test]
fn s1_lists_three_rebases() {
    let text = [S1_LINES, "end  items 3\n"].concat();
    assert_eq!(listed("rebase 8 FILE", &[S1]), text);
}

#[test]
fn s2_lists_one_bind() {
    let text = [S2_LINE, "end  items 1\n"].concat();
    assert_eq!(listed("bind 8 FILE", &[S2]), text);
}

#[test]
fn s3_lists_nothing() {
    assert_eq!(listed("rebase 8 FILE", &[S3]), "end  items 0\n");
}

#[test]
fn s4_is_refused() {
    let text =
        "refused  number 5  place 0  index 0  name \"place before any segment was chosen\"\n";
    assert_eq!(listed("rebase 8 FILE", &[S4]), text);
}

#[test]
fn p1_passes_and_is_refused_with_a_byte_less() {
    let text = "pass  operations 4\n";
    assert_eq!(listed("preflight rebase 8 FILE 0 0 40", &[S1]), text);
    let text = "refused  number 20  place 3  index 2  name \"place outside its segment\"\n";
    assert_eq!(listed("preflight rebase 8 FILE 0 0 39", &[S1]), text);
}

#[test]
fn p2_passes_and_is_refused_with_a_place_more() {
    let mut stream = *b"\x11\x22\x10\x80\x03\xf0\xff\xff\xff\xff\xff\xff\xff\xff\x01";
    let command = "preflight rebase 8 FILE 0 0 24";
    assert_eq!(listed(command, &[&stream]), "pass  operations 3\n");
    stream[4] = 0x04;
    let text = "refused  number 20  place 3  index 3  name \"place outside its segment\"\n";
    assert_eq!(listed(command, &[&stream]), text);
}

#[test]
fn p3_passes_and_is_refused_with_a_place_more() {
    // 2^62 - 7 places, and 2^62 - 6; the size is 2^62.
    let mut stream =
        *b"\x11\x22\x00\x80\xf9\xff\xff\xff\xff\xff\xff\xff\x3f\xf9\xff\xff\xff\xff\xff\xff\xff\xff\x01";
    let command = "preflight rebase 8 FILE 0 0 4611686018427387904";
    assert_eq!(listed(command, &[&stream]), "pass  operations 3\n");
    stream[4] = 0xfa;
    let text = "refused  number 20  place 3  index 4611686018427387897  name \"place outside its segment\"\n";
    assert_eq!(listed(command, &[&stream]), text);
}

#[test]
fn a_text_relocation_has_four_bytes() {
    // Of type 2, in the last four bytes; with a byte less; and of type 1.
    let outside = "refused  number 20  place 3  index 0  name \"place outside its segment\"\n";
    let (text, pointer) = (b"\x12\x22\x24\x51", b"\x11\x22\x24\x51");
    let whole = "preflight rebase 8 FILE 0 0 40";
    assert_eq!(listed(whole, &[text]), "pass  operations 3\n");
    assert_eq!(listed("preflight rebase 8 FILE 0 0 39", &[text]), outside);
    assert_eq!(listed(whole, &[pointer]), outside);
    // A bind of type 3, in each kind of stream; it is at byte 7.
    let bind = b"\x11\x40\x61\x00\x53\x72\x24\x90";
    let outside = outside.replace("place 3", "place 7");
    for kind in ["bind", "weak", "lazy"] {
        let command = |size: u64| format!("preflight {kind} 8 FILE 0 0 {size}");
        assert_eq!(listed(&command(40), &[bind]), "pass  operations 5\n");
        assert_eq!(listed(&command(39), &[bind]), outside);
    }
}

// ---- each kind of item

#[test]
fn a_pointer_size_of_4() {
    let text = "\
rebase  segment  2  offset 0x0000000000000010  type  1
rebase  segment  2  offset 0x0000000000000014  type  1
rebase  segment  2  offset 0x0000000000000018  type  1
end  items 3
";
    assert_eq!(listed("rebase 4 FILE", &[S1]), text);
}

#[test]
fn a_weak_stream_begins_with_type_1_and_library_minus_3() {
    let text = "\
bind  segment  2  offset 0x0000000000000008  type  1  library         -3  flags 0x0  \
addend                    0  name \"_a\"
end  items 1
";
    assert_eq!(listed("weak 8 FILE", &[b"\x40_a\0\x72\x08\x90"]), text);
}

#[test]
fn a_lazy_stream_begins_with_type_1_and_goes_on_behind_done() {
    let stream = b"\x11\x40_a\0\x72\x08\x90\x00\x12\x40_b\0\x72\x10\x90\x00";
    let text = "\
bind  segment  2  offset 0x0000000000000008  type  1  library          1  flags 0x0  \
addend                    0  name \"_a\"
bind  segment  2  offset 0x0000000000000010  type  1  library          2  flags 0x0  \
addend                    0  name \"_b\"
end  items 2
";
    assert_eq!(listed("lazy 8 FILE", &[stream]), text);
}

#[test]
fn done_ends_the_other_streams() {
    // One more bind behind Done, the tenth byte.
    let stream = [S2, b"\x00\x90"].concat();
    let text = [S2_LINE, "end  items 1  read 10  of 11\n"].concat();
    for kind in ["bind", "weak"] {
        assert_eq!(listed(&format!("{kind} 8 FILE"), &[&stream]), text);
    }
    // S1, of five bytes, and three more places.
    let stream = b"\x11\x22\x10\x53\x00\x53";
    let text = [S1_LINES, "end  items 3  read 5  of 6\n"].concat();
    assert_eq!(listed("rebase 8 FILE", &[stream]), text);
}

#[test]
fn bytes_behind_done_are_told_even_if_they_are_zeros() {
    let stream = [S1, &[0; 3]].concat();
    let text = [S1_LINES, &lines::done(3, 5, 8)].concat();
    assert_eq!(listed("rebase 8 FILE", &[&stream]), text);
    assert_eq!(listed("rebase 8 FILE", &[&[0; 2]]), lines::done(0, 1, 2));
}

#[test]
fn where_all_bytes_are_read_they_are_not_told() {
    // Done is the last byte, or there is none; a lazy stream reads on behind it.
    for (kind, stream) in [
        ("rebase", &b"\x00"[..]),
        ("bind", b"\x00"),
        ("weak", b"\x11"),
        ("lazy", b"\x00\x00\x00"),
        ("rebase", b""),
    ] {
        let command = format!("{kind} 8 FILE");
        assert_eq!(listed(&command, &[stream]), "end  items 0\n", "{command}");
    }
}

#[test]
fn a_list_that_is_cut_or_refused_tells_no_bytes() {
    // S1 with a byte more, cut behind its first place; and 90, which is no operation, before Done.
    let stream = [S1, &[0]].concat();
    let cut = listed("rebase 8 FILE --max 1", &[&stream]);
    assert!(cut.ends_with("\ncut  items 1\n"), "{cut}");
    assert_eq!(
        listed("rebase 8 FILE", &[b"\x90\x00\x00"]),
        refused(2, 0, 0)
    );
}

#[test]
fn special_libraries_and_an_addend_below_0() {
    // Type 1, `a`, segment 0 at 0, addend -2; the special immediates 0, 1, 8 and 15, each bound.
    let stream = b"\x51\x40a\0\x70\x00\x60\x7e\x30\x90\x31\x90\x38\x90\x3f\x90";
    let text = "\
bind  segment  0  offset 0x0000000000000000  type  1  library          0  flags 0x0  \
addend                   -2  name \"a\"
bind  segment  0  offset 0x0000000000000008  type  1  library        -15  flags 0x0  \
addend                   -2  name \"a\"
bind  segment  0  offset 0x0000000000000010  type  1  library         -8  flags 0x0  \
addend                   -2  name \"a\"
bind  segment  0  offset 0x0000000000000018  type  1  library         -1  flags 0x0  \
addend                   -2  name \"a\"
end  items 4
";
    assert_eq!(listed("bind 8 FILE", &[stream]), text);
}

#[test]
fn the_widest_bind_fills_its_columns() {
    // The ordinal 2^31 - 1; flags 15 and `a`; type 15; addend -2^63; segment 15 at 2^64 - 1.
    let stream = [
        &b"\x20\xff\xff\xff\xff\x07\x4fa\0\x5f"[..],
        b"\x60\x80\x80\x80\x80\x80\x80\x80\x80\x80\x7f",
        b"\x7f\xff\xff\xff\xff\xff\xff\xff\xff\xff\x01\x90",
    ];
    let text = "\
bind  segment 15  offset 0xffffffffffffffff  type 15  library 2147483647  flags 0xf  \
addend -9223372036854775808  name \"a\"
end  items 1
";
    assert_eq!(listed("bind 8 FILE", &[&stream.concat()]), text);
}

#[test]
fn exports_have_an_address() {
    let text = "\
export  flags 0x01  address 0x0000000000000010  resolver                  -  name \"ab\"
export  flags 0x01  address 0x0000000000000010  resolver                  -  name \"c\"
end  items 2
";
    assert_eq!(listed("exports FILE", &[SHARED]), text);
}

#[test]
fn a_stub_has_a_resolver() {
    let text = "\
export  flags 0x10  address 0x0000000000000020  resolver 0x0000000000000030  name \"\"
end  items 1
";
    assert_eq!(listed("exports FILE", &[b"\x03\x10\x20\x30\x00"]), text);
}

#[test]
fn a_reexport_has_a_library_and_the_name_there() {
    // `_y`, at 6, is `_x` of library 2.
    let trie = b"\x00\x01_y\0\x06\x05\x08\x02_x\0\x00";
    let text = "\
export  flags 0x08  library                  2  resolver                  -  name \"_y\"  import \"_x\"
end  items 1
";
    assert_eq!(listed("exports FILE", &[trie]), text);
}

#[test]
fn segments_that_have_fixups() {
    let text = "\
segment       1  offset 0x0000000000004000  format     2  page 0x1000  pages     1  \
limit 0x00000000  starts       1  place      66
end  items 1
";
    assert_eq!(listed("segments FILE", &[&sample()]), text);
}

#[test]
fn imports_of_four_bytes() {
    let text = "\
import       0  library     1  weak 0  addend                    0  name \"_a\"
import       1  library    -2  weak 1  addend                    0  name \"_b\"
end  items 2
";
    assert_eq!(listed("imports FILE", &[&sample()]), text);
}

#[test]
fn imports_with_addends_of_32_bits() {
    // Library 0xf0 is 240, 0xf1 is -15.
    let imports = u32s(&[0xf0, i32::MIN as u32, 0xf1, 7]);
    let fixups = with_imports(2, 2, &imports, b"a\0");
    let text = "\
import       0  library   240  weak 0  addend          -2147483648  name \"a\"
import       1  library   -15  weak 0  addend                    7  name \"a\"
end  items 2
";
    assert_eq!(listed("imports FILE", &[&fixups]), text);
}

#[test]
fn imports_with_addends_of_64_bits() {
    // Library 0xfff0 is 65,520, 0xffff is -1; the second is weak.
    let imports = u64s(&[0xfff0, i64::MIN as u64, 0x1_ffff, i64::MAX as u64]);
    let fixups = with_imports(3, 2, &imports, b"a\0");
    let text = "\
import       0  library 65520  weak 0  addend -9223372036854775808  name \"a\"
import       1  library    -1  weak 1  addend  9223372036854775807  name \"a\"
end  items 2
";
    assert_eq!(listed("imports FILE", &[&fixups]), text);
}

#[test]
fn the_fixups_of_a_segment() {
    let text = [FIXUPS, "end  items 2\n"].concat();
    let command = "fixups FILE 1 FILE 4096";
    assert_eq!(listed(command, &[&sample(), &contents()]), text);
}

#[test]
fn a_segment_that_is_refused_keeps_no_other_from_being_found() {
    // Of the records of two segments the first would be beyond the data.
    let fixups = with_starts(&[1000, 12], &record(2, 1, &[8]));
    let text = [FIXUPS, "end  items 2\n"].concat();
    let command = "fixups FILE 1 FILE 4096";
    assert_eq!(listed(command, &[&fixups, &contents()]), text);
}

// ---- names

/// What is escaped in a name, and what is not; and how it is printed.
const NAME: &[u8] = b"a \"\\\n\x1f~\x7f\x80\xff";
const QUOTED: &str = r#""a \"\\\x0a\x1f~\x7f\x80\xff""#;

#[test]
fn the_name_of_a_bind_is_escaped() {
    // S2 with another name.
    let stream = [b"\x11\x40", NAME, b"\x00\x51\x72\x08\x90"].concat();
    let text = S2_LINE.replace("\"_a\"", QUOTED) + "end  items 1\n";
    assert_eq!(listed("bind 8 FILE", &[&stream]), text);
}

#[test]
fn both_names_of_a_reexport_are_escaped() {
    // The edge is at 2, and behind its NUL, at 12, is the offset of the node, 14. Its data are the
    // flags, library 2, and the name, ten bytes and a NUL.
    let trie = [
        b"\x00\x01",
        NAME,
        b"\x00\x0e\x0d\x08\x02",
        NAME,
        b"\x00\x00",
    ]
    .concat();
    let text = format!(
        "export  flags 0x08  library                  2  resolver                  -  \
         name {QUOTED}  import {QUOTED}\nend  items 1\n"
    );
    assert_eq!(listed("exports FILE", &[&trie]), text);
}

#[test]
fn the_name_of_an_import_is_escaped() {
    let symbols = [NAME, b"\0"].concat();
    let text = format!(
        "import       0  library     1  weak 0  addend                    0  name {QUOTED}\n\
         end  items 1\n"
    );
    let fixups = with_imports(1, 1, &u32s(&[1]), &symbols);
    assert_eq!(listed("imports FILE", &[&fixups]), text);
}

#[test]
fn names_of_exports_have_room_for_65536_bytes() {
    let name = "a".repeat(65_536);
    let text = format!(
        "export  flags 0x00  address 0x0000000000000005  resolver                  -  \
         name \"{name}\"\nend  items 1\n"
    );
    assert!(listed("exports FILE", &[&long_name(65_536)]) == text);
    assert_eq!(
        listed("exports FILE", &[&long_name(65_537)]),
        refused(18, 0, 0)
    );
}

// ---- much of it

#[test]
fn a_long_listing_is_written_whole() {
    // Type 1; segment 2 at 0; 1,000 times.
    let stream = b"\x11\x22\x00\x60\xe8\x07";
    let lines = (0..1000).map(|place| lines::rebase(&[2, 8 * place, 1]));
    let text = lines.collect::<String>() + "end  items 1000\n";
    assert!(listed("rebase 8 FILE", &[stream]) == text);
}

#[test]
fn four_mebibytes_are_read_whole() {
    // The only import is at 32; its name is all of the symbols, at the end.
    let mut fixups = vec![0; 4 << 20];
    let symbols = fixups.len() as u32 - 2;
    fixups[..36].copy_from_slice(&u32s(&[0, 28, 32, symbols, 1, 1, 0, 0, 1]));
    fixups[symbols as usize] = b'z';
    let text = "\
import       0  library     1  weak 0  addend                    0  name \"z\"
end  items 1
";
    assert_eq!(listed("imports FILE", &[&fixups]), text);
    assert_eq!(
        listed("rebase 8 FILE", &[&vec![0; 4 << 20]]),
        "end  items 0  read 1  of 4194304\n"
    );
}
