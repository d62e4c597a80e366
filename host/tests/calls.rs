//! What a call leaves behind where it answers no item: the end, more, a refusal.

mod common;

use brinetrellis::{answer, raw};
use common::entries::{begun, full, segment, steps, trie_step, Entry, FULL, OUT_OF_RANGE};
use common::{put, sample, words, S3, SHARED};

#[test]
fn a_start_that_is_refused_writes_nothing() {
    let mut state = full(80);
    assert_eq!(raw::rebase_start(7, &mut state), 1);
    assert_eq!(state, full(80));
    for start in [raw::bind_plain, raw::bind_weak, raw::bind_lazy] {
        let mut state = full(144);
        assert_eq!(start(7, &mut state), 1);
        assert_eq!(state, full(144));
    }
    let mut state = full(24);
    assert_eq!(raw::segment_start(&[], &mut state), 9);
    assert_eq!(state, full(24));
    let mut unsupported = segment();
    put(&mut unsupported, 2, 7);
    let mut state = full(128);
    let answer = raw::page_start(&sample(), &unsupported, 0, &mut state);
    assert_eq!((answer, state), (11, full(128)));
    let mut state = full(40);
    assert_eq!(raw::import_start(&[], &mut state), 9);
    assert_eq!(state, full(40));
}

#[test]
fn an_end_is_said_twice_and_its_item_is_zero() {
    for entry in steps() {
        let mut buffers = entry.buffers.clone();
        let mut calls = 0;
        while (entry.call)(&mut buffers) == answer::ITEM {
            buffers[1].fill(FULL);
            calls += 1;
        }
        assert!(0 < calls && calls < 9, "{}", entry.name);
        assert!(buffers[1].iter().all(|byte| *byte == 0), "{}", entry.name);
        // Again: everything but the item, which is zero again, stays as it was.
        let ended = buffers.clone();
        buffers[1].fill(FULL);
        assert_eq!((entry.call)(&mut buffers), answer::END, "{}", entry.name);
        assert!(buffers == ended, "{}", entry.name);
    }
}

#[test]
fn an_end_keeps_what_its_call_has_read() {
    // S3 has two bytes, and no place.
    let mut state = begun(80, |s| raw::rebase_start(8, s));
    let mut item = full(24);
    assert_eq!(raw::rebase_step(S3, &mut state, &mut item), answer::END);
    assert_eq!(words(&state), [2, 8, 0, 0, 0, 0, 0, 0, 0, 0]);
    assert_eq!(item, [0; 24]);
}

#[test]
fn a_done_is_passed_and_the_walk_resumed() {
    // One place; Done; one place.
    let stream = [0x11, 0x22, 0x10, 0x51, 0x00, 0x51];
    let mut state = begun(80, |s| raw::rebase_start(8, s));
    let mut item = full(24);
    assert_eq!(
        raw::rebase_step(&stream, &mut state, &mut item),
        answer::ITEM
    );
    assert_eq!(
        raw::rebase_step(&stream, &mut state, &mut item),
        answer::END
    );
    assert_eq!((words(&state)[0], &item[..]), (5, &[0; 24][..]));
    assert_eq!(
        raw::rebase_step(&stream, &mut state, &mut item),
        answer::ITEM
    );
    assert_eq!(words(&item), [2, 24, 1]);
    assert_eq!(
        raw::rebase_step(&stream, &mut state, &mut item),
        answer::END
    );
}

/// A step is refused: the state is as it was but for the mark, which is the word of an index, and the
/// item is zero. Then it says the end, and leaves everything so.
fn is_marked(
    (number, mark): (u64, usize),
    (given, item): (&[u8], usize),
    step: impl Fn(&mut [u8], &mut [u8]) -> u64,
) {
    let (mut state, mut written) = (given.to_vec(), full(item));
    assert_eq!(step(&mut state, &mut written), number);
    let mut marked = given.to_vec();
    put(&mut marked, mark, 1);
    assert_eq!((&state, &written), (&marked, &vec![0; item]));
    written.fill(FULL);
    assert_eq!(step(&mut state, &mut written), answer::END);
    assert_eq!((state, written), (marked, vec![0; item]));
}

#[test]
fn a_refusal_leaves_the_state_as_it_was_but_marked() {
    // After what could be kept comes an opcode that is none.
    let state = begun(80, |s| raw::rebase_start(8, s));
    let step = |s: &mut [u8], i: &mut [u8]| raw::rebase_step(&[0x11, 0x22, 0x10, 0xff], s, i);
    is_marked((2, 5), (&state, 24), step);
    let state = begun(144, |s| raw::bind_lazy(8, s));
    let step = |s: &mut [u8], i: &mut [u8]| raw::bind_step(b"\x11\x40_a\x00\x72\x08\xff", s, i);
    is_marked((2, 5), (&state, 64), step);
    // The first pointer, at 8, is beyond eight bytes; the format of the imports is 9.
    let state = begun(128, |s| raw::page_start(&sample(), &segment(), 0, s));
    let step = |s: &mut [u8], i: &mut [u8]| raw::page_step(&sample(), &[0; 8], s, i);
    is_marked((13, 15), (&state, 40), step);
    let mut state = begun(40, |s| raw::import_start(&sample(), s));
    put(&mut state, 3, 9);
    let step = |s: &mut [u8], i: &mut [u8]| raw::import_step(&sample(), s, i);
    is_marked((11, 4), (&state, 40), step);
}

#[test]
fn a_refused_segment_is_passed() {
    // The record's size, at 44, becomes 21. The walk has no mark: the next call goes on behind it.
    let mut fixups = sample();
    fixups[44] = 21;
    let mut state = begun(24, |s| raw::segment_start(&fixups, s));
    let mut item = full(64);
    assert_eq!(raw::segment_step(&fixups, &mut state, &mut item), 9);
    assert_eq!((words(&state), &item), (vec![28, 3, 2], &vec![0; 64]));
    let end = raw::segment_step(&fixups, &mut state, &mut item);
    assert_eq!((end, words(&state)), (answer::END, vec![28, 3, 3]));
}

#[test]
fn a_refused_trie_walk_counts_its_visits() {
    // The root; then an edge of two bytes for a buffer of one.
    let mut state = begun(6416, raw::trie_start);
    let (mut item, mut name) = (full(72), full(1));
    let answer = raw::trie_step(SHARED, &mut state, &mut name, 9, &mut item);
    assert_eq!((answer, name), (18, full(1)));
    assert_eq!(words(&item), [1, 0, 0, 0, 0, 0, 0, 0, 0]);
    // The state before the root, marked: depth 0, ended.
    assert_eq!(words(&state[..16]), [0, 1]);
    assert_eq!(state[16..], [0; 6400]);
}

#[test]
fn more_is_said_with_the_visits_alone() {
    let mut state = begun(6416, raw::trie_start);
    let (mut item, mut name) = (full(72), full(2));
    let answer = raw::trie_step(SHARED, &mut state, &mut name, 1, &mut item);
    assert_eq!((answer, &name), (answer::MORE, &full(2)));
    assert_eq!(words(&item), [1, 0, 0, 0, 0, 0, 0, 0, 0]);
    // A limit of 0 changes nothing.
    let begun = state.clone();
    item.fill(FULL);
    let answer = raw::trie_step(SHARED, &mut state, &mut name, 0, &mut item);
    assert_eq!((answer, item), (answer::MORE, vec![0; 72]));
    assert_eq!((state, name), (begun, full(2)));
}

/// Out of range by its values: the state stays, and the item is zero.
fn is_out_of_range(entry: &Entry, changes: &[(usize, u64)]) {
    let mut buffers = entry.buffers.clone();
    for (index, value) in changes {
        put(&mut buffers[0], *index, *value);
    }
    let (answer, left) = entry.on(&buffers);
    let what = format!("{}: {changes:?}", entry.name);
    assert_eq!(answer, OUT_OF_RANGE, "{what}");
    assert!(left[0] == buffers[0], "{what}: the state is written");
    assert!(left[1].iter().all(|byte| *byte == 0), "{what}: an item");
    assert!(left[2..] == buffers[2..], "{what}: the name is written");
}

#[test]
fn a_state_out_of_range_stays_as_it_was() {
    for entry in steps() {
        let states: &[&[(usize, u64)]] = match entry.name {
            // A read place beyond S1, S2; a pointer size. Marked as ended, too: 19 is tested first.
            "rebase_step" => &[&[(0, 6)], &[(1, 0)], &[(1, 5)], &[(0, 6), (5, 1)]],
            "bind_step" => &[&[(0, 10)], &[(1, 0)], &[(1, 16)], &[(0, 10), (5, 1)]],
            // 257 open nodes, ended or not; one whose read place is beyond the 13 bytes; one whose
            // name has three bytes of two.
            "trie_step" => &[
                &[(0, 257)],
                &[(0, 300)],
                &[(0, 1), (2, 14)],
                &[(0, 1), (2 + 512, 3)],
                &[(0, 257), (1, 1)],
            ],
            // The starts, which are 4 + 4 × count bytes, beyond the 83 bytes.
            "segment_step" => &[&[(0, 80), (1, 0)], &[(1, 13)], &[(0, u64::MAX)]],
            // The list of starts beyond the 83 bytes; a format; a page beyond 65,535 × 65,535.
            "page_step" => &[
                &[(6, 82)],
                &[(7, 9)],
                &[(2, 4)],
                &[(13, 65_535 * 65_535 + 1)],
                &[(6, 82), (15, 1)],
            ],
            // Imports or symbols beyond the 83 bytes.
            "import_step" => &[&[(0, 84)], &[(1, 84)], &[(0, 84), (4, 1)]],
            name => panic!("no states of {name}"),
        };
        for changes in states {
            is_out_of_range(&entry, changes);
        }
    }
}

#[test]
fn a_state_at_the_end_of_its_range_is_taken() {
    let bounds: [(&str, &[(usize, u64)]); 7] = [
        ("rebase_step", &[(0, 5)]),
        ("bind_step", &[(0, 9)]),
        ("trie_step", &[(0, 1), (2, 13), (2 + 512, 2)]),
        ("segment_step", &[(0, 79), (1, 0)]),
        ("page_step", &[(6, 81)]),
        ("page_step", &[(13, 65_535 * 65_535)]),
        ("import_step", &[(0, 83), (1, 83), (2, 0)]),
    ];
    let steps = steps();
    for (name, changes) in bounds {
        let entry = steps.iter().find(|entry| entry.name == name).expect(name);
        let mut buffers = entry.buffers.clone();
        for (index, value) in changes {
            put(&mut buffers[0], *index, *value);
        }
        let (answer, _) = entry.on(&buffers);
        assert_ne!(answer, OUT_OF_RANGE, "{name}: {changes:?}");
    }
}

#[test]
fn a_trie_walk_with_no_node_open_begins() {
    let entry = trie_step();
    // What the arrays hold is not looked at.
    let mut buffers = entry.buffers.clone();
    buffers[0][16..].fill(FULL);
    let (answer, left) = entry.on(&buffers);
    assert_eq!((answer, words(&left[0][..16])), (answer::ITEM, vec![2, 0]));
}
