//! Walks over the segments of chained fixups, by the rules.

mod common;

use brinetrellis::{Refusal, Segment, Segments};
use common::{one_segment, record, sample, u16s, u32s};

/// The first segment.
fn segment(fixups: &[u8]) -> Segment {
    let mut walk = Segments::new(fixups).expect("a start");
    walk.next().expect("a segment").expect("a segment")
}

#[test]
fn the_sample_is_as_its_comment_says() {
    let fixups = sample();
    assert_eq!(fixups[66..68], u16s(&[8]));
    assert_eq!(fixups[76..], *b"\0_a\0_b\0");
}

#[test]
fn a_segment_with_offset_0_is_skipped() {
    // See `sample` for the numbers: the record is at 44, its starts at 44 + 22.
    let fixups = sample();
    let mut walk = Segments::new(&fixups).expect("a start");
    let second = walk.next().expect("a segment").expect("a segment");
    assert_eq!(second.index, 1);
    assert_eq!(second.page_size, 0x1000);
    assert_eq!(second.format, 2);
    assert_eq!(second.offset, 0x4000);
    assert_eq!(second.limit, 0);
    assert_eq!(second.pages, 1);
    assert_eq!(second.position, 66);
    assert_eq!(second.count, 1);
    assert_eq!(walk.next(), None);
    assert_eq!(walk.next(), None);
}

#[test]
fn an_odd_byte_of_a_record_is_no_start() {
    // A record of 22 + 5 bytes: two starts.
    let mut fixups = one_segment(6, 0, &[1, 2, 3]);
    fixups[36] = 27;
    assert_eq!(segment(&fixups).count, 2);
    assert_eq!(segment(&fixups).position, 58);
}

#[test]
fn after_a_faulty_record_the_next_segment_comes() {
    // The starts at 28 have the offsets 16, 40 and 64, of records at 44, 68 and 92; of these three
    // the second says that it has 21 bytes.
    let header = u32s(&[0, 28, 0, 0, 0, 1, 0]);
    let records = record(2, 1, &[0]).repeat(3);
    let mut fixups = [header, u32s(&[3, 16, 40, 64]), records].concat();
    fixups[68] = 21;
    let mut walk = Segments::new(&fixups).expect("a start");
    assert_eq!(walk.next().map(|s| s.map(|s| s.position)), Some(Ok(66)));
    assert_eq!(walk.next(), Some(Err(Refusal::FaultyChains.into())));
    let mut again = Segments::from_state(&fixups, walk.into_state());
    assert_eq!(again.next().map(|s| s.map(|s| s.index)), Some(Ok(2)));
    assert_eq!(again.next(), None);
}

#[test]
fn a_record_lies_in_the_bytes_with_its_starts() {
    let fixups = one_segment(2, 1, &[0]);
    let refused = Some(Err(Refusal::FaultyChains.into()));
    for length in 36..fixups.len() {
        let mut walk = Segments::new(&fixups[..length]).expect("a start");
        assert_eq!(walk.next(), refused, "{length} bytes");
        assert_eq!(walk.next(), None);
    }
}

#[test]
fn header_and_starts_lie_in_the_bytes() {
    let fixups = one_segment(2, 1, &[0]);
    for length in 0..36 {
        let start = Segments::new(&fixups[..length]);
        assert_eq!(
            start.err(),
            Some(Refusal::FaultyChains.into()),
            "{length} bytes"
        );
    }
}
