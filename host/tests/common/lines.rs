//! The lines of the program `dump`, written from the words of items as they are at the C boundary.

use std::fmt::Display;

/// What S1 lists, without a closing line.
pub const S1_LINES: &str = "\
rebase  segment  2  offset 0x0000000000000010  type  1
rebase  segment  2  offset 0x0000000000000018  type  1
rebase  segment  2  offset 0x0000000000000020  type  1
";

/// What S2 lists.
pub const S2_LINE: &str = "\
bind  segment  2  offset 0x0000000000000008  type  1  library          1  flags 0x0  \
addend                    0  name \"_a\"
";

/// What the sample's segment lists at the base 0x1000, by which the target 0x1234 is less.
pub const FIXUPS: &str = "\
rebase  offset 0x0000000000000008  target 0x5600000000000234
bind    offset 0x0000000000000010  import                  1  addend   7
";

/// A name in quotes, as it is printed: what is not printable ASCII by its number.
pub fn quoted(name: &[u8]) -> String {
    let escaped = name.iter().map(|byte| match byte {
        b'"' => "\\\"".to_string(),
        b'\\' => "\\\\".to_string(),
        0x20..=0x7e => char::from(*byte).to_string(),
        _ => format!("\\x{byte:02x}"),
    });
    format!("\"{}\"", escaped.collect::<String>())
}

/// Segment, offset, type.
pub fn rebase(item: &[u64]) -> String {
    let [segment, offset, kind] = item.try_into().expect("a rebase");
    format!("rebase  segment {segment:>2}  offset {offset:#018x}  type {kind:>2}\n")
}

/// Segment, offset, type, library, place and length of the name, flags, addend; and the name.
pub fn bind(item: &[u64], name: &[u8]) -> String {
    let [segment, offset, kind, library, _, _, flags, addend] = item.try_into().expect("a bind");
    let (library, addend) = (signed(library), signed(addend));
    format!(
        "bind  segment {segment:>2}  offset {offset:#018x}  type {kind:>2}  \
         library {library:>10}  flags {flags:#x}  addend {addend:>20}  name {}\n",
        quoted(name)
    )
}

/// Length of the name, flags, kind, address or stub, resolver, ordinal, place and length of the
/// import's name; and both names.
pub fn export(item: &[u64], name: &[u8], import: &[u8]) -> String {
    let [_, flags, kind, address, resolver, ordinal, _, _] = item.try_into().expect("an export");
    let (name, import) = (quoted(name), quoted(import));
    let target = match kind {
        0 => format!("address {address:#018x}  resolver {:>18}  name {name}", '-'),
        1 => format!(
            "library {ordinal:>18}  resolver {:>18}  name {name}  import {import}",
            '-'
        ),
        _ => format!("address {address:#018x}  resolver {resolver:#018x}  name {name}"),
    };
    format!("export  flags {flags:#04x}  {target}\n")
}

/// Index, page size, format, offset, limit, pages, place and count of the starts.
pub fn segment(item: &[u64]) -> String {
    let [index, size, format, offset, limit, pages, place, count] =
        item.try_into().expect("a segment");
    format!(
        "segment {index:>7}  offset {offset:#018x}  format {format:>5}  page {size:#06x}  \
         pages {pages:>5}  limit {limit:#010x}  starts {count:>7}  place {place:>7}\n"
    )
}

/// Place, kind, target, ordinal, addend.
pub fn fixup(item: &[u64]) -> String {
    let [place, kind, target, ordinal, addend] = item.try_into().expect("a fixup");
    match kind {
        0 => format!("rebase  offset {place:#018x}  target {target:#018x}\n"),
        _ => format!("bind    offset {place:#018x}  import {ordinal:>18}  addend {addend:>3}\n"),
    }
}

/// Library, weak, addend, place and length of the name; its index, and the name.
pub fn import(index: usize, item: &[u64], name: &[u8]) -> String {
    let [library, weak, addend, _, _] = item.try_into().expect("an import");
    let (library, addend) = (signed(library), signed(addend));
    format!(
        "import {index:>7}  library {library:>5}  weak {weak}  addend {addend:>20}  name {}\n",
        quoted(name)
    )
}

fn signed(word: u64) -> i64 {
    word as i64
}

/// The names of the refusals in plain words, by their numbers from 1.
const REFUSALS: [&str; 21] = [
    "pointer size is neither 4 nor 8",
    "opcode that this reader does not know",
    "operand cut off or malformed",
    "library number too large",
    "place before any segment was chosen",
    "place before any type was chosen",
    "bind before any library was chosen",
    "bind before any symbol was named",
    "chained fixups do not fit their bytes",
    "version of chained fixups that this reader does not know",
    "format that this reader does not know",
    "page or chain beyond the list of starts",
    "chained pointer outside the segment's bytes",
    "import does not fit its bytes",
    "trie node or edge malformed",
    "trie node is its own ancestor",
    "too many trie nodes open at once",
    "exported name longer than the room for it",
    "walk state that no walk can have",
    "place outside its segment",
    "too many segment sizes, or one too large",
];

/// A refusal's name in quotes.
fn named(number: u64) -> String {
    let words = REFUSALS[number as usize - 1];
    format!("name \"{words}\"\n")
}

/// The closing line of a refusal by its number. The place is a number, or what stands for one.
pub fn refused(number: u64, place: impl Display, index: u64) -> String {
    let name = named(number);
    format!("refused  number {number}  place {place}  index {index}  {name}")
}

/// A segment whose record is refused.
pub fn refused_segment(index: u64) -> String {
    format!("segment {index:>7}  refused  number 9  {}", named(9))
}

/// The closing line where so many records of segments are refused: where the starts are, and the
/// index of the first such segment.
pub fn refused_records(starts: u64, first: u64, records: u64) -> String {
    let name = named(9);
    format!("refused  number 9  place {starts}  index {first}  records {records}  {name}")
}

/// The closing line of a stream that has so many items and ends by Done, which is the last of so many
/// bytes read, before its bytes do.
pub fn done(items: u64, read: usize, of: usize) -> String {
    format!("end  items {items}  read {read}  of {of}\n")
}
