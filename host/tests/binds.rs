//! Bind walks: the documented stream, and each operation by the rules.

mod common;

use brinetrellis::{Bind, Binds, Error, Refusal};
use common::S2;

/// What a bind says.
#[derive(Debug, PartialEq, Eq)]
struct Told<'a> {
    segment: u8,
    place: u64,
    kind: u8,
    library: i32,
    name: &'a [u8],
    flags: u8,
    addend: i64,
}

impl<'a> From<Bind<'a>> for Told<'a> {
    fn from(bind: Bind<'a>) -> Told<'a> {
        Told {
            segment: bind.segment,
            place: bind.place,
            kind: bind.kind,
            library: bind.library,
            name: bind.name,
            flags: bind.flags,
            addend: bind.addend,
        }
    }
}

/// What the walk says next.
fn next<'a>(walk: &mut Binds<'a>) -> Option<Result<Told<'a>, Error>> {
    walk.next().map(|next| next.map(Told::from))
}

/// The bind of S2 and its like: everything but the place is as in S2.
fn bind(place: u64) -> Told<'static> {
    Told {
        segment: 2,
        place,
        kind: 1,
        library: 1,
        name: b"_a",
        flags: 0,
        addend: 0,
    }
}

fn plain(stream: &[u8]) -> Vec<Told<'_>> {
    let walk = Binds::plain(stream, 8).expect("a start");
    walk.map(|bind| bind.expect("a bind").into()).collect()
}

#[test]
fn s2_has_one_bind() {
    let mut walk = Binds::plain(S2, 8).expect("a start");
    assert_eq!(next(&mut walk), Some(Ok(bind(8))));
    assert_eq!(next(&mut walk), None);
}

#[test]
fn a_name_is_a_part_of_the_stream() {
    let binds = plain(S2);
    assert_eq!(binds[0].name.as_ptr(), S2[2..].as_ptr());
    // An empty name is one, too.
    let empty = plain(b"\x11\x40\x00\x51\x70\x00\x90");
    assert_eq!(empty[0].name, b"");
}

#[test]
fn each_operation_moves_the_offset_by_its_rule() {
    // From 16: one; one, and 8 more; one, and 2 × 8 more; two, 8 apart; add 4; one.
    let stream = b"\x11\x40_a\x00\x51\x72\x10\x90\xa0\x08\xb2\xc0\x02\x08\x80\x04\x90";
    let binds = [16, 24, 40, 64, 80, 100].map(bind);
    assert_eq!(plain(stream), binds);
}

#[test]
fn flags_types_and_libraries_are_set() {
    let stream = b"\x1f\x4f_a\x00\x5f\x7f\x08\x90";
    let set = Told {
        segment: 15,
        kind: 15,
        library: 15,
        flags: 15,
        ..bind(8)
    };
    assert_eq!(plain(stream), [set]);
}

#[test]
fn special_libraries_are_negative_but_for_0() {
    for (immediate, library) in [(0, 0), (15, -1), (8, -8), (1, -15)] {
        let stream = [0x30 + immediate, 0x40, 0x00, 0x51, 0x70, 0x00, 0x90];
        assert_eq!(plain(&stream)[0].library, library, "immediate {immediate}");
    }
}

#[test]
fn the_largest_library_is_2147483647() {
    let largest = b"\x20\xff\xff\xff\xff\x07\x40\x00\x51\x70\x00\x90";
    assert_eq!(plain(largest)[0].library, 2147483647);
    let above = b"\x20\x80\x80\x80\x80\x08";
    let mut walk = Binds::plain(above, 8).expect("a start");
    assert_eq!(next(&mut walk), Some(Err(Refusal::OrdinalTooLarge.into())));
}

#[test]
fn addends_are_signed() {
    // DWARF's examples.
    let examples: [(&[u8], i64); 4] = [
        (&[0x7e], -2),
        (&[0xff, 0x00], 127),
        (&[0x80, 0x7f], -128),
        (&[0xff, 0x7e], -129),
    ];
    for (number, addend) in examples {
        let stream = [b"\x11\x40\x00\x51\x70\x00\x60", number, b"\x90"].concat();
        assert_eq!(plain(&stream)[0].addend, addend);
    }
}

#[test]
fn a_weak_walk_begins_with_type_and_library() {
    let stream = b"\x40_a\x00\x72\x08\x90";
    let weak = Told {
        library: -3,
        ..bind(8)
    };
    let mut walk = Binds::weak(stream, 8).expect("a start");
    assert_eq!(next(&mut walk), Some(Ok(weak)));
    assert_eq!(next(&mut walk), None);
    // The others lack the type, or the library.
    let mut walk = Binds::plain(stream, 8).expect("a start");
    assert_eq!(next(&mut walk), Some(Err(Refusal::NoType.into())));
    let mut walk = Binds::lazy(stream, 8).expect("a start");
    assert_eq!(next(&mut walk), Some(Err(Refusal::NoLibrary.into())));
}

#[test]
fn done_puts_a_lazy_walk_back_to_its_start() {
    // Two binds with a Done behind each; the second sets anew all but the type.
    let stream = b"\x55\x72\x08\x11\x40_a\x00\x60\x01\x90\x00\x72\x10\x11\x40_a\x00\x90\x00";
    let first = Told {
        kind: 5,
        addend: 1,
        ..bind(8)
    };
    let mut walk = Binds::lazy(stream, 8).expect("a start");
    assert_eq!(next(&mut walk), Some(Ok(first)));
    assert_eq!(next(&mut walk), Some(Ok(bind(16))));
    assert_eq!(next(&mut walk), None);
    // Here the second sets nothing.
    let mut walk = Binds::lazy(b"\x72\x08\x11\x40_a\x00\x90\x00\x90", 8).expect("a start");
    assert_eq!(next(&mut walk), Some(Ok(bind(8))));
    assert_eq!(next(&mut walk), Some(Err(Refusal::NoSegment.into())));
    assert_eq!(next(&mut walk), None);
}

#[test]
fn a_call_after_done_goes_on_behind_it() {
    let stream = [S2, &[0x00, 0x90, 0x00]].concat();
    for start in [Binds::plain, Binds::weak] {
        let mut walk = start(&stream, 8).expect("a start");
        assert_eq!(next(&mut walk), Some(Ok(bind(8))));
        assert_eq!(next(&mut walk), None);
        assert_eq!(next(&mut walk), Some(Ok(bind(16))));
        assert_eq!(next(&mut walk), None);
        assert_eq!(next(&mut walk), None);
    }
}

#[test]
fn a_walk_is_paused_within_a_repeat() {
    let stream = b"\x11\x40_a\x00\x51\x72\x08\xc0\x02\x00";
    let mut walk = Binds::plain(stream, 8).expect("a start");
    assert_eq!(next(&mut walk), Some(Ok(bind(8))));
    let mut again = Binds::from_state(stream, walk.into_state());
    assert_eq!(next(&mut again), Some(Ok(bind(16))));
    assert_eq!(next(&mut again), None);
}

#[test]
fn a_name_that_does_not_lie_in_the_stream_is_empty() {
    // Two binds, the second of which is due when the walk is paused; then its name is moved.
    let stream = b"\x11\x40_a\x00\x51\x72\x08\xc0\x02\x00";
    let mut walk = Binds::plain(stream, 8).expect("a start");
    assert_eq!(next(&mut walk), Some(Ok(bind(8))));
    let mut state = walk.into_state();
    let name = 14; // the word that has its place
    common::put(&mut state, name, stream.len() as u64 - 1);
    let moved = Told {
        name: b"",
        ..bind(16)
    };
    let mut again = Binds::from_state(stream, state);
    assert_eq!(next(&mut again), Some(Ok(moved)));
}

#[test]
fn threaded_binds_are_refused() {
    for opcode in [0xd0, 0xd1, 0xe0, 0xff] {
        let stream = [opcode];
        let mut walk = Binds::plain(&stream, 8).expect("a start");
        assert_eq!(next(&mut walk), Some(Err(Refusal::UnknownOpcode.into())));
    }
}

#[test]
fn pointer_sizes_are_4_and_8() {
    for start in [Binds::plain, Binds::weak, Binds::lazy] {
        for size in [0, 5, 256 + 8, u64::MAX] {
            assert_eq!(
                start(S2, size).err(),
                Some(Refusal::PointerSize.into()),
                "{size}"
            );
        }
        assert!(start(S2, 4).is_ok());
    }
}
