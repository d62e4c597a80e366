//! A second reading of tries, for what the crate does not have: how many nodes a walk visits, and
//! where it meets the reader's limits on open nodes (17) and names (18). It also keeps a trie whose
//! nodes are shared too often from the crate, which would list them all.

use oracle::END;

/// The answer of a reading that was cut.
pub const CUT: u64 = 1000;

/// What a walk comes to.
#[derive(Debug, Clone, Copy, PartialEq, Eq)]
pub struct Reading {
    pub visits: u64,
    pub exports: usize,
    pub ending: u64,
}

/// What bounds a walk.
#[derive(Debug, Clone, Copy)]
pub struct Limits {
    pub visits: u64,
    pub open: usize,
    pub room: usize,
}

struct Open {
    at: usize,
    offset: u64,
    left: u8,
    name: usize,
}

/// Reads a trie.
pub fn read(bytes: &[u8], limits: Limits) -> Reading {
    let mut reading = Reading {
        visits: 0,
        exports: 0,
        ending: CUT,
    };
    let mut open: Vec<Open> = Vec::with_capacity(16);
    reading.ending = match enter(bytes, 0, 0, &mut open, &mut reading) {
        Some(()) => onward(bytes, limits, &mut open, &mut reading),
        None => 15,
    };
    reading
}

fn onward(bytes: &[u8], limits: Limits, open: &mut Vec<Open>, reading: &mut Reading) -> u64 {
    while let Some(top) = open.last_mut() {
        if top.left == 0 {
            open.pop();
            continue;
        }
        if reading.visits == limits.visits {
            return CUT;
        }
        let Some(edge) = bytes[top.at..].iter().position(|byte| *byte == 0) else {
            return 15;
        };
        let Some((offset, next)) = number(bytes, top.at + edge + 1) else {
            return 15;
        };
        (top.at, top.left) = (next, top.left - 1);
        let name = top.name + edge;
        if name > limits.room {
            return 18;
        }
        if open.iter().any(|node| node.offset == offset) {
            return 16;
        }
        // The 257th node is read before it is refused, and counts as no visit then.
        let before = *reading;
        if enter(bytes, offset, name, open, reading).is_none() {
            return 15;
        }
        if open.len() > limits.open {
            *reading = before;
            return 17;
        }
    }
    END
}

/// Reads a node and opens it.
fn enter(
    bytes: &[u8],
    offset: u64,
    name: usize,
    open: &mut Vec<Open>,
    reading: &mut Reading,
) -> Option<()> {
    let start = usize::try_from(offset)
        .ok()
        .filter(|start| *start <= bytes.len())?;
    let (size, at) = number(bytes, start)?;
    let behind = at
        .checked_add(usize::try_from(size).ok()?)
        .filter(|end| *end < bytes.len())?;
    if size != 0 {
        export(&bytes[at..behind])?;
    }
    reading.visits += 1;
    reading.exports += usize::from(size != 0);
    open.push(Open {
        at: behind + 1,
        offset,
        left: bytes[behind],
        name,
    });
    Some(())
}

/// Whether the export data of a node can be read.
fn export(area: &[u8]) -> Option<()> {
    let (flags, at) = number(area, 0)?;
    if flags > 0x3f {
        return None;
    }
    let (_, at) = number(area, at)?;
    if flags & 0x08 != 0 {
        return area[at..].contains(&0).then_some(());
    }
    if flags & 0x10 != 0 {
        number(area, at)?;
    }
    Some(())
}

/// An unsigned LEB128 number and the place behind it.
pub fn number(bytes: &[u8], at: usize) -> Option<(u64, usize)> {
    let mut sum = 0u128;
    for (index, byte) in bytes.get(at..)?.iter().take(10).enumerate() {
        sum += u128::from(byte & 0x7f) << (7 * index);
        if byte & 0x80 == 0 {
            return Some((u64::try_from(sum).ok()?, at + index + 1));
        }
    }
    None
}
