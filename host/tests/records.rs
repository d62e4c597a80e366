//! What the boundary writes, word by word. The comments say how the words follow from the bytes.

mod common;

use brinetrellis::{answer, raw};
use common::entries::{begun, full, segment, FULL};
use common::{contents, sample, u64s, words, S1, S2, SHARED};

#[test]
fn the_words_of_a_rebase_walk() {
    let mut state = full(80);
    assert_eq!(raw::rebase_start(8, &mut state), answer::ITEM);
    assert_eq!(words(&state), [0, 8, 0, 0, 0, 0, 0, 0, 0, 0]);
    let mut item = full(24);
    assert_eq!(raw::rebase_step(S1, &mut state, &mut item), answer::ITEM);
    // Four bytes are read; two places are due, 8 apart, from 24 on; segment 2 and type 1 are set.
    assert_eq!(words(&state), [4, 8, 2, 8, 24, 0, 1, 1, 2, 1]);
    assert_eq!(words(&item), [2, 16, 1]);
}

#[test]
fn the_words_of_a_bind_walk() {
    let (mut state, mut item) = (full(144), full(64));
    let minus_three = (-3i64) as u64;
    assert_eq!(raw::bind_weak(4, &mut state), answer::ITEM);
    let weak = [
        0,
        4,
        0,
        0,
        0,
        0,
        0,
        0,
        1,
        1,
        0,
        0,
        1,
        minus_three,
        0,
        0,
        0,
        0,
    ];
    assert_eq!(words(&state), weak);
    assert_eq!(raw::bind_lazy(4, &mut state), answer::ITEM);
    let lazy = [0, 4, 0, 0, 0, 0, 1, 0, 1, 0, 0, 0, 1, 0, 0, 0, 0, 0];
    assert_eq!(words(&state), lazy);
    assert_eq!(raw::bind_plain(8, &mut state), answer::ITEM);
    let plain = [0, 8, 0, 0, 0, 0, 0, 0, 0, 0, 0, 0, 0, 0, 0, 0, 0, 0];
    assert_eq!(words(&state), plain);
    // S2 with the flags 3 and the addend -2: all of it is read, and the next offset is 16.
    let stream = b"\x11\x43_a\x00\x51\x60\x7e\x72\x08\x90";
    assert_eq!(raw::bind_step(stream, &mut state, &mut item), answer::ITEM);
    let minus_two = (-2i64) as u64;
    let bound = [
        11, 8, 0, 8, 16, 0, 0, 1, 1, 1, 1, 2, 1, 1, 2, 2, 3, minus_two,
    ];
    assert_eq!(words(&state), bound);
    assert_eq!(words(&item), [2, 8, 1, 1, 2, 2, 3, minus_two]);
}

#[test]
fn the_words_of_a_trie_walk() {
    let (mut state, mut item, mut name) = (full(6416), full(72), full(4));
    assert_eq!(raw::trie_start(&mut state), answer::ITEM);
    assert_eq!(state, vec![0; 6416]);
    let export = raw::trie_step(SHARED, &mut state, &mut name, 9, &mut item);
    assert_eq!(export, answer::ITEM);
    // The root and the node at 9 are open: next edges at 6 and 13, names of 0 and 2 bytes, one child
    // left and none.
    let (numbers, left) = state.split_at(16 + 3 * 2048);
    let mut expected = vec![0; 2 + 3 * 256];
    expected[..4].copy_from_slice(&[2, 0, 6, 13]);
    expected[2 + 256..][..2].copy_from_slice(&[0, 9]);
    expected[2 + 512..][..2].copy_from_slice(&[0, 2]);
    assert_eq!(words(numbers), expected);
    assert_eq!((left[0], &left[1..]), (1, &[0; 255][..]));
    assert_eq!(words(&item), [2, 2, 1, 0, 16, 0, 0, 0, 0]);
    assert_eq!(name, [b'a', b'b', FULL, FULL]);
}

#[test]
fn the_words_of_exports() {
    let export = |trie: &[u8]| {
        let mut state = begun(6416, raw::trie_start);
        let mut item = full(72);
        let answer = raw::trie_step(trie, &mut state, &mut [], 1, &mut item);
        assert_eq!(answer, answer::ITEM);
        words(&item)
    };
    // The root exports: an address; a re-export of `_x`, at 3, of library 2; a stub and a resolver.
    assert_eq!(export(b"\x02\x02\x05\x00"), [1, 0, 2, 0, 5, 0, 0, 0, 0]);
    let reexport = export(b"\x05\x08\x02_x\x00\x00");
    assert_eq!(reexport, [1, 0, 8, 1, 0, 0, 2, 3, 2]);
    let stub = export(b"\x03\x10\x20\x30\x00");
    assert_eq!(stub, [1, 0, 16, 2, 0x20, 0x30, 0, 0, 0]);
}

#[test]
fn the_words_of_walks_over_chained_fixups() {
    let fixups = sample();
    let (mut state, mut item) = (full(24), full(64));
    assert_eq!(raw::segment_start(&fixups, &mut state), answer::ITEM);
    assert_eq!(words(&state), [28, 3, 0]);
    let found = raw::segment_step(&fixups, &mut state, &mut item);
    assert_eq!(found, answer::ITEM);
    assert_eq!((words(&state), item), (vec![28, 3, 2], segment()));

    let (mut state, mut item) = (full(128), full(40));
    let found = raw::page_start(&fixups, &segment(), 0x1000, &mut state);
    assert_eq!(found, answer::ITEM);
    assert_eq!(state[..64], segment());
    assert_eq!(words(&state[64..]), [0x1000, 0, 0, 0, 0, 0, 0, 0]);
    let found = raw::page_step(&fixups, &contents(), &mut state, &mut item);
    assert_eq!(found, answer::ITEM);
    // A pointer is due at 16, then page 1.
    assert_eq!(state[..64], segment());
    assert_eq!(words(&state[64..]), [0x1000, 1, 0, 1, 0, 0, 16, 0]);
    assert_eq!(words(&item), [8, 0, 0x56 << 56 | 0x234, 0, 0]);
    let found = raw::page_step(&fixups, &contents(), &mut state, &mut item);
    assert_eq!((found, words(&item)), (answer::ITEM, vec![16, 1, 0, 1, 7]));
}

#[test]
fn the_words_of_an_import_walk() {
    let fixups = sample();
    let (mut state, mut item) = (full(40), full(40));
    assert_eq!(raw::import_start(&fixups, &mut state), answer::ITEM);
    assert_eq!(words(&state), [68, 76, 2, 1, 0]);
    let found = raw::import_step(&fixups, &mut state, &mut item);
    assert_eq!((found, words(&item)), (answer::ITEM, vec![1, 0, 0, 77, 2]));
    assert_eq!(words(&state), [72, 76, 1, 1, 0]);
    let found = raw::import_step(&fixups, &mut state, &mut item);
    let minus_two = (-2i64) as u64;
    assert_eq!(found, answer::ITEM);
    assert_eq!(words(&item), [minus_two, 1, 0, 80, 2]);
}

#[test]
fn the_words_of_a_verdict() {
    let judge = |size| {
        let mut verdict = full(16);
        let sizes = u64s(&[0, 0, size]);
        let answer = raw::preflight_rebase(S1, 8, &sizes, &mut verdict);
        (answer, words(&verdict))
    };
    assert_eq!(judge(40), (answer::ITEM, vec![4, 0]));
    assert_eq!(judge(39), (20, vec![3, 2]));
    assert_eq!(judge(u64::MAX), (21, vec![0, 0]));
    let mut verdict = full(16);
    assert_eq!(raw::preflight_rebase(S1, 7, &[], &mut verdict), 1);
    assert_eq!(words(&verdict), [0, 0]);
}

#[test]
fn a_part_lies_in_the_bytes() {
    let part = |place, length| {
        let mut part = full(16);
        assert_eq!(raw::name(S2, place, length, &mut part), answer::ITEM);
        words(&part)
    };
    assert_eq!(part(2, 2), [2, 2]);
    assert_eq!(part(0, 9), [0, 9]);
    assert_eq!(part(9, 0), [9, 0]);
    assert_eq!(part(8, 2), [0, 0]);
    assert_eq!(part(10, 0), [0, 0]);
    assert_eq!(part(u64::MAX, 2), [0, 0]);
    assert_eq!(part(2, u64::MAX), [0, 0]);
    assert_eq!(part(u64::MAX, u64::MAX), [0, 0]);
}
