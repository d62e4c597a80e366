//! The crate's walks over chained fixups.

use crate::endian::LittleEndian;
use crate::macho::DyldChainedPtrFormat;
use crate::macho::{DYLD_CHAINED_PTR_32, DYLD_CHAINED_PTR_64, DYLD_CHAINED_PTR_64_OFFSET};
use crate::read::macho::{DyldChainedFixups, DyldChainedImport, DyldChainedSegment, Fixup};
use crate::read::Result;
use crate::streams::{place, repeat};
use crate::texts::number;
use crate::{pod, Answers, Bounds, END};

const LE: LittleEndian = LittleEndian;

/// The words of a segment: index, page size, format, offset, limit, pages, place and count of its
/// starts. The starts themselves are private in the crate: they lie behind the record, and its size
/// tells how many there are.
fn segment_words(fixups: &[u8], segment: &DyldChainedSegment<'_, LittleEndian>) -> [u64; 8] {
    let header = segment.header();
    let record = pod::bytes_of(header);
    [
        segment.index().into(),
        header.page_size.get(LE).into(),
        header.pointer_format.get(LE).0.into(),
        header.segment_offset.get(LE),
        header.max_valid_pointer.get(LE).into(),
        header.page_count.get(LE).into(),
        place(fixups, record) + record.len() as u64,
        (u64::from(header.size.get(LE)) - record.len() as u64) / 2,
    ]
}

/// The walk over the segments. The answer of the start stands first: 0, without words, or its
/// refusal, and then nothing follows.
pub fn segments(fixups: &[u8], bounds: Bounds, answers: &mut Answers) {
    answers.clear();
    let start = DyldChainedFixups::parse(LE, fixups).and_then(|parsed| parsed.segments(LE));
    let Some(mut walk) = begun(start, answers) else {
        return;
    };
    repeat(bounds, answers, |answers| match walk.next() {
        Ok(None) => answers.number(END),
        Ok(Some(segment)) => answers.item(&segment_words(fixups, &segment)),
        Err(error) => answers.number(number(error)),
    });
}

fn begun<T>(start: Result<T>, answers: &mut Answers) -> Option<T> {
    answers.number(start.as_ref().err().map_or(0, |error| number(*error)));
    start.ok()
}

/// The words of a pointer: place, kind, target, ordinal, addend.
fn page_words(place: u64, fixup: Fixup) -> [u64; 5] {
    match fixup {
        Fixup::Rebase(rebase) => [place, 0, rebase.target_offset, 0, 0],
        Fixup::Bind(bind) => [place, 1, 0, bind.ordinal.into(), bind.addend as u64],
        other => unreachable!("pointer formats 2, 3 and 6 have no {other:?}"),
    }
}

fn supported(format: DyldChainedPtrFormat) -> bool {
    matches!(
        format,
        DYLD_CHAINED_PTR_64 | DYLD_CHAINED_PTR_32 | DYLD_CHAINED_PTR_64_OFFSET
    )
}

/// The walk over the pointers of the segment that the walk over segments yields as its `nth`. The
/// answer of the start stands first. Formats outside 2, 3 and 6 are refused there, by the reader's
/// rules and not by the crate, which reads more of them.
pub fn pages(
    fixups: &[u8],
    nth: usize,
    base: u64,
    contents: &[u8],
    bounds: Bounds,
    answers: &mut Answers,
) {
    answers.clear();
    let segments = DyldChainedFixups::parse(LE, fixups).and_then(|parsed| parsed.segments(LE));
    let yielded = segments
        .expect("its segments were listed")
        .flatten()
        .nth(nth);
    let segment = yielded.expect("the segment was listed");
    if !supported(segment.header().pointer_format.get(LE)) {
        return answers.number(11);
    }
    answers.number(0);
    let mut walk = segment.fixups(LE, base, contents);
    repeat(bounds, answers, |answers| match walk.next() {
        Ok(None) => answers.number(END),
        Ok(Some((place, fixup))) => answers.item(&page_words(place, fixup)),
        Err(error) => answers.number(number(error)),
    });
}

/// The words of an import: library, weak, addend, place and length of the name.
fn import_words(fixups: &[u8], import: &DyldChainedImport<'_>) -> [u64; 5] {
    [
        import.dylib.0 as u64,
        import.weak_import.into(),
        import.addend as u64,
        place(fixups, import.name),
        import.name.len() as u64,
    ]
}

/// The walk over the imports. The answer of the start stands first.
pub fn imports(fixups: &[u8], bounds: Bounds, answers: &mut Answers) {
    answers.clear();
    let start = DyldChainedFixups::parse(LE, fixups).and_then(|parsed| parsed.imports(LE));
    let Some(mut walk) = begun(start, answers) else {
        return;
    };
    repeat(bounds, answers, |answers| match walk.next() {
        Ok(None) => answers.number(END),
        Ok(Some(import)) => {
            answers.item(&import_words(fixups, &import));
            answers.name(import.name);
        }
        Err(error) => answers.number(number(error)),
    });
}
