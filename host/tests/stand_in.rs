//! A library of another version: every entry point answers 99, which this crate does not know.
//! That is an error everywhere, and no panic. `.ci/host` links the stand-in, tests/c/stand_in.c.

use brinetrellis::{name, preflight, record, Verdict};
use brinetrellis::{Binds, Error, Exports, Fixups, Found, Imports, Rebases, Segments};

const UNKNOWN: Error = Error::Unknown {
    what: "answer",
    number: 99,
};

/// A walk that goes on says the error, and then no more.
fn is_unknown<T: std::fmt::Debug>(mut walk: impl Iterator<Item = Result<T, Error>>) {
    assert_eq!(walk.next().map(Result::unwrap_err), Some(UNKNOWN));
    assert!(walk.next().is_none());
}

#[test]
#[ignore = "it is for the stand-in, which .ci/host links"]
fn an_unknown_answer_is_an_error_and_no_panic() {
    assert_eq!(Rebases::new(&[], 8).err(), Some(UNKNOWN));
    for start in [Binds::plain, Binds::weak, Binds::lazy] {
        assert_eq!(start(&[], 8).err(), Some(UNKNOWN));
    }
    assert_eq!(Exports::new(&[]).err(), Some(UNKNOWN));
    assert_eq!(Segments::new(&[]).err(), Some(UNKNOWN));
    assert_eq!(Imports::new(&[]).err(), Some(UNKNOWN));

    is_unknown(Rebases::from_state(&[], [0; record::REBASE_STATE]));
    is_unknown(Binds::from_state(&[], [0; record::BIND_STATE]));
    is_unknown(Exports::from_state(&[], [0; record::TRIE_STATE], vec![]));
    is_unknown(Segments::from_state(&[], [0; record::SEGMENT_STATE]));
    is_unknown(Fixups::from_state(&[], &[], [0; record::PAGE_STATE]));
    is_unknown(Imports::from_state(&[], [0; record::IMPORT_STATE]));
    let mut exports = Exports::from_state(&[], [0; record::TRIE_STATE], vec![]);
    assert_eq!(exports.next_within(1).found, Found::Failed(UNKNOWN));

    assert_eq!(name(b"_a", 0, 2), Err(UNKNOWN));
    for judge in [
        preflight::rebases,
        preflight::plain_binds,
        preflight::weak_binds,
        preflight::lazy_binds,
    ] {
        let verdict = judge(&[], 8, &[]);
        assert_eq!(verdict, Verdict::Unknown { answer: 99 });
        assert!(!verdict.passes());
    }
}
