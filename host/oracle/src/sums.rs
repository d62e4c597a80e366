//! What the crate is timed by: one number of each item of a walk, summed up, and a visit of every
//! place.

use crate::endian::LittleEndian;
use crate::operations::width;
use crate::read::macho::{Bind, DyldChainedFixups, Rebase};
use crate::streams::{binds, command, rebases};
use crate::texts::number;
use crate::Stream;

const LE: LittleEndian = LittleEndian;

/// The offsets of a rebase stream.
pub fn rebase(stream: &[u8], pointer_size: u8) -> u64 {
    let mut walk = rebases(stream, pointer_size);
    let mut sum = 0u64;
    while let Ok(Some(rebase)) = walk.next() {
        sum = sum.wrapping_add(rebase.segment_offset);
    }
    sum
}

/// The offsets of a stream of plain binds.
pub fn bind(stream: &[u8], pointer_size: u8) -> u64 {
    let mut walk = binds(Stream::Plain, stream, pointer_size);
    let mut sum = 0u64;
    while let Ok(Some(bind)) = walk.next() {
        sum = sum.wrapping_add(bind.segment_offset);
    }
    sum
}

/// The lengths of the names of a trie's exports.
pub fn trie(trie: &[u8]) -> u64 {
    let mut walk = command(trie.len()).exports_trie(LE, trie).unwrap();
    let mut sum = 0u64;
    while let Ok(Some(export)) = walk.next() {
        sum = sum.wrapping_add(export.name().len() as u64);
    }
    sum
}

/// The places of the first segment's fixups.
pub fn pages(fixups: &[u8], contents: &[u8], base: u64) -> u64 {
    let parsed = DyldChainedFixups::parse(LE, fixups).unwrap();
    let segment = parsed.segments(LE).unwrap().next().unwrap().unwrap();
    let mut walk = segment.fixups(LE, base, contents);
    let mut sum = 0u64;
    while let Ok(Some((place, _))) = walk.next() {
        sum = sum.wrapping_add(place);
    }
    sum
}

/// The offsets of the segments of chained fixups.
pub fn segments(fixups: &[u8]) -> u64 {
    let parsed = DyldChainedFixups::parse(LE, fixups).unwrap();
    let mut walk = parsed.segments(LE).unwrap();
    let mut sum = 0u64;
    while let Ok(Some(segment)) = walk.next() {
        sum = sum.wrapping_add(segment.header().segment_offset.get(LE));
    }
    sum
}

/// The lengths of the names of the imports of chained fixups.
pub fn imports(fixups: &[u8]) -> u64 {
    let parsed = DyldChainedFixups::parse(LE, fixups).unwrap();
    let mut walk = parsed.imports(LE).unwrap();
    let mut sum = 0u64;
    while let Ok(Some(import)) = walk.next() {
        sum = sum.wrapping_add(import.name.len() as u64);
    }
    sum
}

/// The number that a preflight answers, found by a walk to every place.
pub fn visit_rebases(stream: &[u8], pointer_size: u8, sizes: &[u64]) -> u64 {
    let mut walk = rebases(stream, pointer_size);
    let bytes = |r: &Rebase| width(Stream::Rebase, r.kind.0, pointer_size.into());
    loop {
        match walk.next() {
            Ok(Some(r)) if inside(r.segment_index, r.segment_offset, bytes(&r), sizes) => (),
            Ok(Some(_)) => return 20,
            Ok(None) => return 0,
            Err(error) => return number(error),
        }
    }
}

pub fn visit_binds(stream: &[u8], pointer_size: u8, sizes: &[u64]) -> u64 {
    let mut walk = binds(Stream::Plain, stream, pointer_size);
    let bytes = |b: &Bind<'_>| width(Stream::Plain, b.kind.0, pointer_size.into());
    loop {
        match walk.next() {
            Ok(Some(b)) if inside(b.segment_index, b.segment_offset, bytes(&b), sizes) => (),
            Ok(Some(_)) => return 20,
            Ok(None) => return 0,
            Err(error) => return number(error),
        }
    }
}

fn inside(segment: u8, offset: u64, width: u64, sizes: &[u64]) -> bool {
    let end = offset.checked_add(width);
    let size = sizes.get(usize::from(segment));
    end.zip(size).is_some_and(|(end, size)| end <= *size)
}
