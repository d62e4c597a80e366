//! Walks over the fixups of a segment, by the rules.

mod common;

use brinetrellis::{Error, Fixup, Fixups, Patch, Refusal, Segment, Segments};
use common::{contents, one_segment, sample, u32s, u64s};

/// The place of a fixup, and what is put there.
type Told = (u64, Patch);

fn rebase(place: u64, target: u64) -> Told {
    (place, Patch::Rebase { target })
}

fn bind(place: u64, ordinal: u64, addend: u64) -> Told {
    (place, Patch::Bind { ordinal, addend })
}

fn told(fixup: Fixup) -> Told {
    (fixup.place, fixup.patch)
}

/// What the walk says next.
fn next(walk: &mut Fixups<'_>) -> Option<Result<Told, Error>> {
    walk.next().map(|next| next.map(told))
}

/// The first segment.
fn segment(fixups: &[u8]) -> Segment {
    let mut walk = Segments::new(fixups).expect("a start");
    walk.next().expect("a segment").expect("a segment")
}

/// The fixups of the first segment.
fn walk<'a>(fixups: &'a [u8], base: u64, contents: &'a [u8]) -> Fixups<'a> {
    Fixups::new(fixups, &segment(fixups), base, contents).expect("a start")
}

fn all(fixups: &[u8], base: u64, contents: &[u8]) -> Result<Vec<Told>, Error> {
    let fixups = walk(fixups, base, contents);
    fixups.map(|next| next.map(told)).collect()
}

#[test]
fn a_chain_of_64_bit_pointers() {
    // Format 2: 0x1234 less the base, with high8 in the top byte; then 2 × 4 bytes on, a bind.
    let fixups = sample();
    let high = 0x56 << 56;
    let found = all(&fixups, 0x1000, &contents()).expect("fixups");
    assert_eq!(found, [rebase(8, high | 0x234), bind(16, 1, 7)]);
    // Above the target the base wraps it: 0x1234 - 0x1235 has all bits set.
    let found = all(&fixups, 0x1235, &contents()).expect("fixups");
    assert_eq!(found[0], rebase(8, u64::MAX));
}

#[test]
fn format_6_has_no_base() {
    let fixups = one_segment(6, 1, &[8]);
    let found = all(&fixups, 0x1000, &contents()).expect("fixups");
    assert_eq!(found[0], rebase(8, 0x56 << 56 | 0x1234));
}

#[test]
fn fields_of_a_64_bit_pointer_have_their_widths() {
    let fixups = one_segment(6, 1, &[0]);
    // A rebase with every bit of target and high8, and every reserved bit; next is 0.
    let target = (1 << 36) - 1;
    let pointer = u64s(&[target | 0xff << 36 | 0x7f << 44]);
    let found = all(&fixups, 0, &pointer).expect("fixups");
    assert_eq!(found, [rebase(0, 0xff << 56 | target)]);
    // A bind likewise: 24 bits of ordinal, 8 of addend, which has no sign, and 19 reserved.
    let pointer = u64s(&[0xff_ffff | 0xff << 24 | 0x7_ffff << 32 | 1 << 63]);
    let found = all(&fixups, 0, &pointer).expect("fixups");
    assert_eq!(found, [bind(0, 0xff_ffff, 0xff)]);
}

#[test]
fn a_chain_of_32_bit_pointers() {
    // Format 3, at 4: target 26 bits, next 5, bind 1; next 2, so the bind is at 12: ordinal 20 bits,
    // addend 6 bits without a sign.
    let fixups = one_segment(3, 1, &[4]);
    let rebased = 0x3ff_ffff | 2 << 26;
    let bound = 0xf_ffff | 0x3f << 20 | 1 << 31;
    let bytes = u32s(&[0, rebased, 0, bound]);
    let found = all(&fixups, 0x1000, &bytes).expect("fixups");
    assert_eq!(found, [rebase(4, 0x3ff_efff), bind(12, 0xf_ffff, 0x3f)]);
}

#[test]
fn the_longest_links() {
    // Next has 12 bits: 4095 × 4 bytes on; and 5 bits: 31 × 4.
    let mut bytes = vec![0; 16380 + 8];
    bytes[..8].copy_from_slice(&u64s(&[0xfff << 51]));
    let found = all(&one_segment(6, 1, &[0]), 0, &bytes).expect("fixups");
    assert_eq!(found, [rebase(0, 0), rebase(16380, 0)]);
    let mut bytes = vec![0; 124 + 4];
    bytes[..4].copy_from_slice(&u32s(&[0x1f << 26]));
    let found = all(&one_segment(3, 1, &[0]), 0, &bytes).expect("fixups");
    assert_eq!(found, [rebase(0, 0), rebase(124, 0)]);
}

#[test]
fn a_page_without_a_chain_is_passed() {
    // Of three pages of 0x1000 bytes the second has no chain: 0xffff is no list, though it has 0x8000.
    let fixups = one_segment(6, 3, &[0, 0xffff, 8]);
    let mut bytes = vec![0; 0x2010];
    bytes[0] = 1;
    bytes[0x2008] = 2;
    let found = all(&fixups, 0, &bytes).expect("fixups");
    assert_eq!(found, [rebase(0, 1), rebase(0x2008, 2)]);
}

#[test]
fn a_page_with_a_list_of_chains() {
    // Two pages: the first has the list at index 2, of chains at 16 and, the last, at 0; the second
    // has one chain, at 4 in the page.
    let fixups = one_segment(6, 2, &[0x8002, 4, 16, 0x8000]);
    let mut bytes = vec![0; 0x100c];
    bytes[0] = 1;
    bytes[16] = 2;
    bytes[0x1004] = 3;
    let found = all(&fixups, 0, &bytes).expect("fixups");
    assert_eq!(found, [rebase(16, 2), rebase(0, 1), rebase(0x1004, 3)]);
}

#[test]
fn indexes_lie_in_the_starts_list() {
    // Two pages and one start; a list at index 1 of one start; a list whose last chain is missing.
    let beyond = Some(Err(Refusal::BeyondStarts.into()));
    let bytes = [0; 16];
    let fixups = one_segment(6, 2, &[0]);
    let mut pages = walk(&fixups, 0, &bytes);
    assert_eq!(next(&mut pages), Some(Ok(rebase(0, 0))));
    assert_eq!(next(&mut pages), beyond);
    assert_eq!(next(&mut pages), None);
    let fixups = one_segment(6, 1, &[0x8001]);
    assert_eq!(next(&mut walk(&fixups, 0, &bytes)), beyond);
    let fixups = one_segment(6, 1, &[0x8001, 8]);
    let mut pages = walk(&fixups, 0, &bytes);
    assert_eq!(next(&mut pages), Some(Ok(rebase(8, 0))));
    assert_eq!(next(&mut pages), beyond);
}

#[test]
fn pointers_lie_in_the_segment() {
    // Eight bytes at 8, or four.
    for (format, width) in [(2, 8), (6, 8), (3, 4)] {
        let fixups = one_segment(format, 1, &[8]);
        let bytes = vec![0; 8 + width];
        assert_eq!(all(&fixups, 0, &bytes), Ok(vec![rebase(8, 0)]));
        let cut = all(&fixups, 0, &bytes[1..]);
        assert_eq!(cut, Err(Refusal::PointerOutside.into()), "format {format}");
    }
}

#[test]
fn other_pointer_formats_are_refused_at_the_start() {
    for format in [0, 1, 4, 5, 7, 12, 0xffff] {
        let fixups = one_segment(format, 0, &[]);
        let start = Fixups::new(&fixups, &segment(&fixups), 0, &[]);
        assert_eq!(
            start.err(),
            Some(Refusal::UnsupportedFormat.into()),
            "{format}"
        );
    }
}

#[test]
fn a_segment_of_other_bytes_is_out_of_range() {
    // The list of starts must lie whole in the bytes, and that is tested before the format.
    let fixups = one_segment(2, 1, &[0]);
    for format in [2, 7] {
        let mut known = segment(&fixups);
        known.format = format;
        let start = Fixups::new(&fixups[..59], &known, 0, &[]);
        assert_eq!(start.err(), Some(Refusal::StateOutOfRange.into()));
    }
}

#[test]
fn a_page_walk_is_paused_within_a_chain() {
    let (fixups, bytes) = (sample(), contents());
    let mut pages = walk(&fixups, 0x1000, &bytes);
    assert_eq!(next(&mut pages), Some(Ok(rebase(8, 0x56 << 56 | 0x234))));
    let mut again = Fixups::from_state(&fixups, &bytes, pages.into_state());
    assert_eq!(next(&mut again), Some(Ok(bind(16, 1, 7))));
    assert_eq!(next(&mut again), None);
    assert_eq!(next(&mut again), None);
}
