//! One input through one walk, and its text: what a difference is printed with, what is recorded.

use crate::hex;
use oracle::{Bounds, Stream};

/// How often a walk is let say the end: it may go on behind one.
pub const ENDS: usize = 3;

#[derive(Debug, Clone, Copy)]
pub enum Case<'a> {
    Stream {
        stream: Stream,
        size: u8,
        calls: usize,
        bytes: &'a [u8],
    },
    /// With the node limit of each call and the length of the name buffer.
    Trie {
        limit: u64,
        room: usize,
        bytes: &'a [u8],
    },
    Segments {
        calls: usize,
        fixups: &'a [u8],
    },
    /// Of the segment that the walk over segments yields as its `nth`.
    Pages {
        nth: usize,
        base: u64,
        calls: usize,
        fixups: &'a [u8],
        contents: &'a [u8],
    },
    Imports {
        calls: usize,
        fixups: &'a [u8],
    },
    Preflight {
        stream: Stream,
        size: u64,
        sizes: &'a [u64],
        bytes: &'a [u8],
    },
}

/// The bounds of a walk with so many calls.
pub fn bounds(calls: usize) -> Bounds {
    Bounds { calls, ends: ENDS }
}

const STREAMS: [(&str, Stream); 4] = [
    ("rebase", Stream::Rebase),
    ("plain", Stream::Plain),
    ("weak", Stream::Weak),
    ("lazy", Stream::Lazy),
];

fn title(stream: Stream) -> &'static str {
    STREAMS[stream as usize].0
}

fn stream(title: &str) -> Option<Stream> {
    STREAMS
        .iter()
        .find(|(name, _)| *name == title)
        .map(|(_, stream)| *stream)
}

impl Case<'_> {
    /// The case in one line.
    pub fn text(&self) -> String {
        use hex::{digits, list};
        match *self {
            Case::Stream {
                stream,
                size,
                calls,
                bytes,
            } => {
                format!("{} {size} {calls} {}", title(stream), digits(bytes))
            }
            Case::Trie { limit, room, bytes } => format!("trie {limit} {room} {}", digits(bytes)),
            Case::Segments { calls, fixups } => format!("segments {calls} {}", digits(fixups)),
            Case::Pages {
                nth,
                base,
                calls,
                fixups,
                contents,
            } => {
                let (fixups, contents) = (digits(fixups), digits(contents));
                format!("pages {nth} {base} {calls} {fixups} {contents}")
            }
            Case::Imports { calls, fixups } => format!("imports {calls} {}", digits(fixups)),
            Case::Preflight {
                stream,
                size,
                sizes,
                bytes,
            } => {
                format!(
                    "preflight {} {size} {} {}",
                    title(stream),
                    list(sizes),
                    digits(bytes)
                )
            }
        }
    }
}

/// The bytes of a case that was read from a text.
#[derive(Debug, Default)]
pub struct Parts {
    bytes: Vec<u8>,
    contents: Vec<u8>,
    sizes: Vec<u64>,
}

impl Parts {
    /// Reads a case from its line.
    pub fn read(&mut self, line: &str) -> Option<Case<'_>> {
        let fields: Vec<&str> = line.split(' ').collect();
        match fields[..] {
            ["pages", nth, base, calls, fixups, contents] => {
                self.bytes = hex::bytes(fixups)?;
                self.contents = hex::bytes(contents)?;
                Some(Case::Pages {
                    nth: nth.parse().ok()?,
                    base: base.parse().ok()?,
                    calls: calls.parse().ok()?,
                    fixups: &self.bytes,
                    contents: &self.contents,
                })
            }
            ["preflight", name, size, sizes, bytes] => {
                self.bytes = hex::bytes(bytes)?;
                self.sizes = hex::words(sizes)?;
                Some(Case::Preflight {
                    stream: stream(name)?,
                    size: size.parse().ok()?,
                    sizes: &self.sizes,
                    bytes: &self.bytes,
                })
            }
            [walk, calls, fixups] => self.chained(walk, calls.parse().ok()?, fixups),
            [walk, first, second, bytes] => self.bytes(walk, first, second, bytes),
            _ => None,
        }
    }

    fn chained(&mut self, walk: &str, calls: usize, fixups: &str) -> Option<Case<'_>> {
        self.bytes = hex::bytes(fixups)?;
        let fixups = &self.bytes;
        match walk {
            "segments" => Some(Case::Segments { calls, fixups }),
            "imports" => Some(Case::Imports { calls, fixups }),
            _ => None,
        }
    }

    /// A trie with limit and room, or a stream with pointer size and calls.
    fn bytes(&mut self, walk: &str, first: &str, second: &str, text: &str) -> Option<Case<'_>> {
        self.bytes = hex::bytes(text)?;
        let (bytes, number) = (&self.bytes, second.parse().ok()?);
        if walk == "trie" {
            return Some(Case::Trie {
                limit: first.parse().ok()?,
                room: number,
                bytes,
            });
        }
        let (stream, size) = (stream(walk)?, first.parse().ok()?);
        Some(Case::Stream {
            stream,
            size,
            calls: number,
            bytes,
        })
    }
}
