//! Rebase walks: the documented streams, and each operation by the rules.

mod common;

use brinetrellis::{Error, Rebases, Refusal};
use common::{S1, S3, S4};

/// Segment, place and type of a rebase.
type Told = (u8, u64, u8);

fn at(segment: u8, place: u64, kind: u8) -> Option<Result<Told, Error>> {
    Some(Ok((segment, place, kind)))
}

/// What the walk says next.
fn next(walk: &mut Rebases<'_>) -> Option<Result<Told, Error>> {
    walk.next()
        .map(|next| next.map(|rebase| (rebase.segment, rebase.place, rebase.kind)))
}

fn places(stream: &[u8], pointer_size: u64) -> Vec<u64> {
    let walk = Rebases::new(stream, pointer_size).expect("a start");
    walk.map(|rebase| rebase.expect("a place").place).collect()
}

#[test]
fn s1_has_three_places() {
    let mut walk = Rebases::new(S1, 8).expect("a start");
    assert_eq!(next(&mut walk), at(2, 16, 1));
    assert_eq!(next(&mut walk), at(2, 24, 1));
    assert_eq!(next(&mut walk), at(2, 32, 1));
    assert_eq!(next(&mut walk), None);
    assert_eq!(next(&mut walk), None);
}

#[test]
fn s3_ends_and_s4_is_refused() {
    let mut walk = Rebases::new(S3, 8).expect("a start");
    assert_eq!(next(&mut walk), None);
    let mut walk = Rebases::new(S4, 8).expect("a start");
    assert_eq!(next(&mut walk), Some(Err(Refusal::NoSegment.into())));
    assert_eq!(next(&mut walk), None);
}

#[test]
fn each_operation_moves_the_offset_by_its_rule() {
    // Pointer size 4, from 8: add 16 and 2 × 4; two places; two; one, and 8 more; two, 4 apart; one.
    let stream = [
        0x11, 0x21, 0x08, 0x30, 0x10, 0x42, 0x52, 0x60, 0x02, 0x70, 0x08, 0x80, 0x02, 0x04, 0x51,
    ];
    let expected = [32, 36, 40, 44, 48, 60, 68, 76];
    assert_eq!(places(&stream, 4), expected);
}

#[test]
fn immediates_have_four_bits() {
    let mut walk = Rebases::new(&[0x1f, 0x2f, 0x00, 0x51], 8).expect("a start");
    assert_eq!(next(&mut walk), at(15, 0, 15));
}

#[test]
fn offsets_are_modulo_2_to_the_64() {
    // From 2^64 - 8.
    let stream = b"\x11\x20\xf8\xff\xff\xff\xff\xff\xff\xff\xff\x01\x52";
    assert_eq!(places(stream, 8), [u64::MAX - 7, 0]);
}

#[test]
fn a_count_of_zero_asks_for_nothing() {
    // Before anything is set: 0 times, by all three ways to say so. Then one place.
    let stream = [0x50, 0x60, 0x00, 0x80, 0x00, 0x08, 0x11, 0x20, 0x03, 0x51];
    assert_eq!(places(&stream, 8), [3]);
}

#[test]
fn a_call_after_done_goes_on_behind_it() {
    let mut walk = Rebases::new(&[0x11, 0x22, 0x10, 0x51, 0x00, 0x51, 0x00], 8).expect("a start");
    assert_eq!(next(&mut walk), at(2, 16, 1));
    assert_eq!(next(&mut walk), None);
    assert_eq!(next(&mut walk), at(2, 24, 1));
    assert_eq!(next(&mut walk), None);
    assert_eq!(next(&mut walk), None);
}

#[test]
fn a_walk_is_paused_within_a_repeat() {
    let mut walk = Rebases::new(S1, 8).expect("a start");
    assert_eq!(next(&mut walk), at(2, 16, 1));
    let mut again = Rebases::from_state(S1, walk.into_state());
    assert_eq!(next(&mut again), at(2, 24, 1));
    assert_eq!(next(&mut again), at(2, 32, 1));
    assert_eq!(next(&mut again), None);
}

#[test]
fn a_refused_walk_has_ended_for_good() {
    let mut walk = Rebases::new(S4, 8).expect("a start");
    assert_eq!(next(&mut walk), Some(Err(Refusal::NoSegment.into())));
    let mut again = Rebases::from_state(S4, walk.into_state());
    assert_eq!(next(&mut again), None);
}

#[test]
fn a_state_of_longer_bytes_is_refused_once() {
    let mut walk = Rebases::new(S1, 8).expect("a start");
    assert_eq!(next(&mut walk), at(2, 16, 1));
    // It has read four bytes.
    let state = walk.into_state();
    let mut short = Rebases::from_state(&S1[..3], state);
    assert_eq!(next(&mut short), Some(Err(Refusal::StateOutOfRange.into())));
    assert_eq!(next(&mut short), None);
    // The state is as it was.
    assert_eq!(short.into_state(), state);
}

#[test]
fn pointer_sizes_are_4_and_8() {
    for size in [
        0,
        1,
        3,
        5,
        7,
        9,
        16,
        256 + 4,
        256 + 8,
        (1 << 32) + 8,
        u64::MAX,
    ] {
        assert_eq!(
            Rebases::new(S1, size).err(),
            Some(Refusal::PointerSize.into()),
            "{size}"
        );
    }
    assert_eq!(places(S1, 4), [16, 20, 24]);
}
