//! What the boundary takes: slices of the right length, and fields with the values of their types.

mod common;

use brinetrellis::{answer, raw, record};
use common::entries::{begun, entries, full, steps, FULL, OUT_OF_RANGE};
use common::{put, words, S1};

#[test]
fn there_are_19_entry_points_and_each_takes_its_records() {
    assert_eq!(entries().len(), 19);
    for entry in entries() {
        let (answer, left) = entry.on(&entry.buffers);
        assert_eq!(answer, answer::ITEM, "{}", entry.name);
        assert!(left != entry.buffers, "{}: nothing written", entry.name);
    }
}

#[test]
fn a_record_has_exactly_its_length() {
    for entry in entries() {
        for index in 0..entry.records {
            let right = entry.buffers[index].len();
            for length in [right - 1, right + 1, right - 7, right + 7] {
                let mut buffers = entry.buffers.clone();
                buffers[index].resize(length, FULL);
                entry.keeps_off(&buffers, &format!("{length} bytes for {right}"));
            }
        }
    }
}

#[test]
fn a_record_is_not_empty_and_not_twice_as_long() {
    for entry in entries() {
        // A preflight takes any whole number of sizes.
        let first = usize::from(entry.name.starts_with("preflight"));
        for index in first..entry.records {
            let right = entry.buffers[index].len();
            for length in [0, right - 8, right + 8, 2 * right] {
                let mut buffers = entry.buffers.clone();
                buffers[index].resize(length, FULL);
                entry.keeps_off(&buffers, &format!("{length} bytes for {right}"));
            }
        }
    }
}

#[test]
fn the_lengths_are_those_of_the_records() {
    let lengths = [
        (record::REBASE_STATE, record::REBASE_ITEM, "rebase_step"),
        (record::BIND_STATE, record::BIND_ITEM, "bind_step"),
        (record::SEGMENT_STATE, record::SEGMENT_ITEM, "segment_step"),
        (record::PAGE_STATE, record::PAGE_ITEM, "page_step"),
        (record::IMPORT_STATE, record::IMPORT_ITEM, "import_step"),
        (record::TRIE_STATE, record::TRIE_ITEM, "trie_step"),
    ];
    for ((state, item, name), entry) in lengths.into_iter().zip(steps()) {
        let taken = (entry.buffers[0].len(), entry.buffers[1].len(), entry.name);
        assert_eq!((state, item, name), taken);
    }
}

#[test]
fn a_length_is_tested_before_a_pointer_size() {
    for start in [
        raw::rebase_start,
        raw::bind_plain,
        raw::bind_weak,
        raw::bind_lazy,
    ] {
        assert_eq!(start(7, &mut full(79)), OUT_OF_RANGE);
    }
    let (mut short, mut long) = (full(15), full(17));
    assert_eq!(raw::preflight_rebase(S1, 7, &[], &mut short), OUT_OF_RANGE);
    assert_eq!(raw::preflight_rebase(S1, 7, &[], &mut long), OUT_OF_RANGE);
    let mut verdict = full(16);
    let sizes = raw::preflight_rebase(S1, 7, &[0; 7], &mut verdict);
    assert_eq!((sizes, verdict), (OUT_OF_RANGE, full(16)));
}

/// The fields that have fewer values than their word.
#[derive(Clone, Copy)]
enum Field {
    Mark,
    Byte,
    Half,
    Signed,
}

impl Field {
    /// The values at the ends of what it has.
    fn within(self) -> Vec<u64> {
        match self {
            Field::Mark => vec![0, 1],
            Field::Byte => vec![0, 0xff],
            Field::Half => vec![0, 0xffff],
            Field::Signed => vec![0x7fff_ffff, (-0x8000_0000i64) as u64],
        }
    }

    /// Values just beyond, and some whose low bits would do.
    fn beyond(self) -> Vec<u64> {
        match self {
            Field::Mark => vec![2, 256, 1 << 32, u64::MAX],
            Field::Byte => vec![0x100, 0x104, 0x108, 1 << 32, u64::MAX],
            Field::Half => vec![0x1_0000, 0x1_0002, 1 << 32, u64::MAX],
            Field::Signed => vec![
                0x8000_0000,
                u32::MAX.into(),
                (-0x8000_0001i64) as u64,
                1 << 63,
            ],
        }
    }
}

/// Of each entry point that takes a state or a segment, which is its first buffer: the fields by the
/// index of their word.
fn fields(name: &str) -> Vec<(usize, Field)> {
    use Field::{Byte, Half, Mark, Signed};
    let segment = [(1, Half), (2, Half), (5, Half)];
    match name {
        "rebase_step" => {
            let marks = [5, 6, 7].map(|index| (index, Mark));
            [&marks[..], &[(1, Byte), (8, Byte), (9, Byte)]].concat()
        }
        "bind_step" => {
            let marks = [5, 6, 7, 8, 9, 10].map(|index| (index, Mark));
            let bytes = [1, 11, 12, 16].map(|index| (index, Byte));
            [&marks[..], &bytes, &[(13, Signed)]].concat()
        }
        "trie_step" => vec![(1, Mark)],
        "page_start" => segment.to_vec(),
        "page_step" => [&segment[..], &[(9, Mark), (10, Mark), (15, Mark)]].concat(),
        "import_step" => vec![(4, Mark)],
        _ => vec![],
    }
}

#[test]
fn a_field_has_the_values_of_its_type() {
    let mut tried = 0;
    for entry in entries() {
        for (index, field) in fields(entry.name) {
            for value in field.beyond() {
                let mut buffers = entry.buffers.clone();
                put(&mut buffers[0], index, value);
                entry.keeps_off(&buffers, &format!("word {index} is {value}"));
            }
            for value in field.within() {
                let mut buffers = entry.buffers.clone();
                put(&mut buffers[0], index, value);
                let (answer, left) = entry.on(&buffers);
                // It may be a refusal, but then an item is written.
                let taken = answer != OUT_OF_RANGE || left != buffers;
                assert!(taken, "{}: word {index} is {value}", entry.name);
            }
            tried += 1;
        }
    }
    assert_eq!(tried, 6 + 11 + 1 + 3 + 6 + 1);
}

#[test]
fn the_other_words_have_any_value() {
    for entry in steps() {
        // The arrays of a trie are not looked at where no node is open.
        let words = entry.buffers[0].len().min(144) / 8;
        for index in 0..words {
            if fields(entry.name).iter().any(|(other, _)| *other == index) {
                continue;
            }
            let mut buffers = entry.buffers.clone();
            put(&mut buffers[0], index, u64::MAX);
            let (_, left) = entry.on(&buffers);
            // Whatever the answer is, the item is written.
            assert!(left[1] != buffers[1], "{}: word {index}", entry.name);
        }
    }
}

#[test]
fn slices_that_are_read_may_be_empty() {
    let mut item = full(24);
    let mut state = begun(80, |s| raw::rebase_start(8, s));
    assert_eq!(raw::rebase_step(&[], &mut state, &mut item), answer::END);
    let mut state = begun(144, |s| raw::bind_lazy(8, s));
    assert_eq!(raw::bind_step(&[], &mut state, &mut full(64)), answer::END);
    let mut verdict = full(16);
    let passes = raw::preflight_lazy(&[], 8, &[], &mut verdict);
    assert_eq!((passes, verdict), (answer::ITEM, vec![0; 16]));
    let mut state = begun(6416, raw::trie_start);
    let faulty = raw::trie_step(&[], &mut state, &mut [], 1, &mut full(72));
    assert_eq!(faulty, 15);
    let mut part = full(16);
    assert_eq!(raw::name(&[], 0, 0, &mut part), answer::ITEM);
    assert_eq!(words(&part), [0, 0]);
}
