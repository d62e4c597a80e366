//! Walks over the imports of chained fixups, by the rules.

mod common;

use brinetrellis::{Error, Import, Imports, Refusal};
use common::{sample, u32s, u64s, with_imports};

/// Library, whether it is weak, addend and name of an import.
type Told<'a> = (i32, bool, i64, &'a [u8]);

fn import(library: i32, weak: bool, addend: i64, name: &[u8]) -> Told<'_> {
    (library, weak, addend, name)
}

fn told(import: Import<'_>) -> Told<'_> {
    (import.library, import.weak, import.addend, import.name)
}

/// What the walk says next.
fn next<'a>(walk: &mut Imports<'a>) -> Option<Result<Told<'a>, Error>> {
    walk.next().map(|next| next.map(told))
}

fn imports(fixups: &[u8]) -> Result<Vec<Told<'_>>, Error> {
    Imports::new(fixups)?.map(|next| next.map(told)).collect()
}

#[test]
fn imports_of_format_1() {
    let fixups = sample();
    let expected = [import(1, false, 0, b"_a"), import(-2, true, 0, b"_b")];
    let found = imports(&fixups).expect("imports");
    assert_eq!(found, expected);
    // The names are parts of the bytes.
    assert_eq!(found[1].3.as_ptr(), fixups[80..].as_ptr());
}

#[test]
fn imports_of_format_2_have_an_addend_of_32_bits() {
    // Library 0xf0 is 240, and 0xf1 is -15.
    let records = u32s(&[0xf0, 5, 0xf1 | 1 << 8 | 2 << 9, u32::MAX]);
    let fixups = with_imports(2, 2, &records, b"a\0b\0");
    let expected = [import(240, false, 5, b"a"), import(-15, true, -1, b"b")];
    assert_eq!(imports(&fixups).expect("imports"), expected);
}

#[test]
fn imports_of_format_3_have_an_addend_of_64_bits() {
    // Library 16 bits, weak 1, reserved 15, name offset 32. 0xfff0 is 65520, and 0xfff1 is -15.
    let reserved = 0x7fff << 17;
    let second = 0xfff1 | 1 << 16 | reserved | 2 << 32;
    let records = u64s(&[0xfff0, 1 << 62, second, u64::MAX - 1]);
    let fixups = with_imports(3, 2, &records, b"a\0b\0");
    let expected = [
        import(65520, false, 1 << 62, b"a"),
        import(-15, true, -2, b"b"),
    ];
    assert_eq!(imports(&fixups).expect("imports"), expected);
}

#[test]
fn an_unknown_import_format_is_refused_at_the_first_import() {
    for format in [0, 4, u32::MAX] {
        let none = with_imports(format, 0, &[], &[]);
        assert_eq!(imports(&none), Ok(vec![]));
        let one = with_imports(format, 1, &u64s(&[0, 0]), b"a\0");
        let mut walk = Imports::new(&one).expect("a start");
        assert_eq!(
            next(&mut walk),
            Some(Err(Refusal::UnsupportedFormat.into()))
        );
        assert_eq!(next(&mut walk), None);
    }
}

#[test]
fn the_import_start_tests_in_order() {
    // The words of the header: version 0, imports offset 2, symbols offset 3, symbols format 6. Each
    // fault is taken away after it was refused.
    let mut bytes = u32s(&[1, 0, 29, 29, 0, 1, 1]);
    let start = |bytes: &[u8]| Imports::new(bytes).err();
    assert_eq!(start(&bytes[..27]), Some(Refusal::FaultyChains.into()));
    assert_eq!(start(&bytes), Some(Refusal::UnknownVersion.into()));
    bytes[0] = 0;
    assert_eq!(start(&bytes), Some(Refusal::UnsupportedFormat.into()));
    bytes[24] = 0;
    assert_eq!(start(&bytes), Some(Refusal::FaultyImport.into()));
    bytes[8] = 28;
    assert_eq!(start(&bytes), Some(Refusal::FaultyImport.into()));
    bytes[12] = 28;
    assert_eq!(start(&bytes), None);
}

#[test]
fn records_and_names_lie_in_the_bytes() {
    // Of one import of format 1, its record cut; its name beyond the symbols; its name without a NUL.
    let refused = Err(Refusal::FaultyImport.into());
    assert_eq!(imports(&with_imports(1, 1, &[0, 0, 0], b"")), refused);
    let records = u32s(&[3 << 9]);
    assert_eq!(imports(&with_imports(1, 1, &records, b"a\0")), refused);
    let records = u32s(&[1 << 9]);
    assert_eq!(imports(&with_imports(1, 1, &records, b"\0ab")), refused);
    let found = with_imports(1, 1, &records, b"\0ab\0");
    assert_eq!(imports(&found), Ok(vec![import(0, false, 0, b"ab")]));
}

#[test]
fn an_import_walk_is_paused() {
    let fixups = sample();
    let mut walk = Imports::new(&fixups).expect("a start");
    assert_eq!(next(&mut walk), Some(Ok(import(1, false, 0, b"_a"))));
    let mut again = Imports::from_state(&fixups, walk.into_state());
    assert_eq!(next(&mut again), Some(Ok(import(-2, true, 0, b"_b"))));
    assert_eq!(next(&mut again), None);
    assert_eq!(next(&mut again), None);
}
