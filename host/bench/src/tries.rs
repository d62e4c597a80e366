//! Exports tries.

use crate::streams::uleb;

/// The bytes of a trie. A node at one depth has so many children, all of them at the next; those at
/// the last depth are exports.
pub fn trie(children: &[usize]) -> Vec<u8> {
    let counts = levels(children);
    let mut offsets = vec![0; counts.iter().sum()];
    // The length of an offset moves the nodes behind it: until nothing moves.
    loop {
        let (bytes, laid) = nodes(children, &counts, &offsets);
        if laid == offsets {
            return bytes;
        }
        offsets = laid;
    }
}

/// How many nodes there are at each depth.
fn levels(children: &[usize]) -> Vec<usize> {
    let mut counts = vec![1];
    counts.extend(children.iter().scan(1, |count, many| {
        *count *= many;
        Some(*count)
    }));
    counts
}

/// The nodes, depth by depth, and where they lie, by where they are said to lie.
fn nodes(children: &[usize], counts: &[usize], said: &[u64]) -> (Vec<u8>, Vec<u64>) {
    let (mut bytes, mut laid) = (Vec::new(), Vec::new());
    let mut next = 1;
    for (many, count) in children.iter().zip(counts) {
        for _ in 0..*count {
            laid.push(bytes.len() as u64);
            bytes.extend([0, *many as u8]);
            for child in 0..*many {
                bytes.extend(format!("_part{child:03}\0").bytes());
                uleb(&mut bytes, said[next]);
                next += 1;
            }
        }
    }
    for export in 0..counts[children.len()] {
        laid.push(bytes.len() as u64);
        let mut terminal = vec![0];
        uleb(&mut terminal, 0x4000 + 16 * export as u64);
        bytes.push(terminal.len() as u8);
        bytes.extend(terminal);
        bytes.push(0);
    }
    (bytes, laid)
}
