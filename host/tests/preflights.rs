//! Preflights: the documented streams, and the order of the tests.

mod common;

use brinetrellis::preflight::{lazy_binds, plain_binds, rebases, weak_binds};
use brinetrellis::{Refusal, Verdict};
use common::{S1, S2, S3, S4};

const LARGEST: u64 = 1 << 62;

fn passes(operations: u64) -> Verdict {
    Verdict::Passes { operations }
}

fn fault(refusal: Refusal, position: u64, index: u64) -> Verdict {
    Verdict::Fault {
        refusal,
        position,
        index,
    }
}

#[test]
fn p1() {
    assert_eq!(rebases(S1, 8, &[0, 0, 40]), passes(4));
    let outside = fault(Refusal::PlaceOutside, 3, 2);
    assert_eq!(rebases(S1, 8, &[0, 0, 39]), outside);
}

#[test]
fn p2_goes_backwards() {
    // Places 16, 8 and 0, and then one that is outside.
    let mut stream = *b"\x11\x22\x10\x80\x03\xf0\xff\xff\xff\xff\xff\xff\xff\xff\x01";
    assert_eq!(rebases(&stream, 8, &[0, 0, 24]), passes(3));
    stream[4] = 0x04;
    let outside = fault(Refusal::PlaceOutside, 3, 3);
    assert_eq!(rebases(&stream, 8, &[0, 0, 24]), outside);
}

#[test]
fn p3_is_not_stepped_through() {
    // 2^62 - 7 times, skipping 2^64 - 7; then 2^62 - 6 times.
    let mut stream =
        *b"\x11\x22\x00\x80\xf9\xff\xff\xff\xff\xff\xff\xff\x3f\xf9\xff\xff\xff\xff\xff\xff\xff\xff\x01";
    assert_eq!(rebases(&stream, 8, &[0, 0, LARGEST]), passes(3));
    stream[4] = 0xfa;
    let outside = fault(Refusal::PlaceOutside, 3, LARGEST - 7);
    assert_eq!(rebases(&stream, 8, &[0, 0, LARGEST]), outside);
}

#[test]
fn s2_has_five_operations() {
    // The bind, at byte 8, takes the bytes 8 to 16 of segment 2.
    for judge in [plain_binds, weak_binds, lazy_binds] {
        assert_eq!(judge(S2, 8, &[0, 0, 16]), passes(5));
        let outside = fault(Refusal::PlaceOutside, 8, 0);
        assert_eq!(judge(S2, 8, &[0, 0, 15]), outside);
    }
}

#[test]
fn the_three_kinds_of_binds_begin_as_their_walks() {
    // A name, a segment, and one bind at byte 5: no type and no library.
    let stream = b"\x40a\x00\x70\x00\x90";
    assert_eq!(plain_binds(stream, 8, &[8]), fault(Refusal::NoType, 5, 0));
    assert_eq!(weak_binds(stream, 8, &[8]), passes(3));
    assert_eq!(lazy_binds(stream, 8, &[8]), fault(Refusal::NoLibrary, 5, 0));
}

#[test]
fn done_ends_a_stream_that_is_not_lazy() {
    // Behind the Done, at byte 10, is a bind; in a lazy stream nothing is set there.
    let stream = [S2, &[0x00, 0x90]].concat();
    assert_eq!(plain_binds(&stream, 8, &[0, 0, 16]), passes(6));
    assert_eq!(weak_binds(&stream, 8, &[0, 0, 16]), passes(6));
    let unset = fault(Refusal::NoSegment, 10, 0);
    assert_eq!(lazy_binds(&stream, 8, &[0, 0, 16]), unset);
    // In a rebase stream, too: what is behind is not read.
    assert_eq!(rebases(&[0x00, 0x90], 8, &[]), passes(1));
}

#[test]
fn a_stream_without_places_passes() {
    assert_eq!(rebases(S3, 8, &[]), passes(1));
    assert_eq!(rebases(&[], 8, &[]), passes(0));
}

#[test]
fn what_is_unset_comes_before_what_is_outside() {
    assert_eq!(rebases(S4, 8, &[]), fault(Refusal::NoSegment, 0, 0));
    let untyped = [0x20, 0x00, 0x51];
    assert_eq!(rebases(&untyped, 8, &[]), fault(Refusal::NoType, 2, 0));
    let set = [0x20, 0x00, 0x11, 0x51];
    assert_eq!(rebases(&set, 8, &[]), fault(Refusal::PlaceOutside, 3, 0));
}

#[test]
fn a_place_at_the_end_of_the_numbers_does_not_wrap() {
    // One place at 2^64 - 8, by the operation at byte 12.
    let stream = b"\x11\x20\xf8\xff\xff\xff\xff\xff\xff\xff\xff\x01\x51";
    let outside = fault(Refusal::PlaceOutside, 12, 0);
    assert_eq!(rebases(stream, 8, &[LARGEST]), outside);
}

#[test]
fn a_place_between_is_judged_too() {
    // Three times, skipping 2^63 - 8: at 0, at 2^63, and at 0 again.
    let stream = b"\x11\x20\x00\x80\x03\xf8\xff\xff\xff\xff\xff\xff\xff\x7f";
    let outside = fault(Refusal::PlaceOutside, 3, 1);
    assert_eq!(rebases(stream, 8, &[16]), outside);
}

#[test]
fn the_width_of_a_pointer_is_the_pointer_size() {
    assert_eq!(rebases(&S1[..4], 4, &[0, 0, 28]), passes(3));
    let outside = fault(Refusal::PlaceOutside, 3, 2);
    assert_eq!(rebases(&S1[..4], 4, &[0, 0, 27]), outside);
}

#[test]
fn sixteen_sizes_of_2_to_the_62_fit() {
    assert_eq!(rebases(S1, 8, &[LARGEST; 16]), passes(4));
    let mut sizes = [LARGEST; 16];
    sizes[15] += 1;
    let unfit = fault(Refusal::UnfitSizes, 0, 0);
    for judge in [rebases, plain_binds, weak_binds, lazy_binds] {
        assert_eq!(judge(S1, 8, &sizes), unfit);
        assert_eq!(judge(S1, 8, &[0; 17]), unfit);
        assert_eq!(judge(S1, 8, &[0; 18]), unfit);
        assert_eq!(judge(S1, 8, &[0; 1000]), unfit);
    }
}

#[test]
fn pointer_size_then_sizes_then_the_stream() {
    for judge in [rebases, plain_binds, weak_binds, lazy_binds] {
        let unfit = fault(Refusal::UnfitSizes, 0, 0);
        assert_eq!(judge(&[0xff], 8, &[0; 17]), unfit);
        for size in [7, 256 + 8] {
            let refused = fault(Refusal::PointerSize, 0, 0);
            assert_eq!(judge(&[0xff], size, &[0; 17]), refused);
        }
        let unknown = fault(Refusal::UnknownOpcode, 0, 0);
        assert_eq!(judge(&[0xff], 8, &[0; 16]), unknown);
    }
}
