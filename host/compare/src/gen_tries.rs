//! Exports tries: trees, with nodes shared, and with a way back to an open one.

use crate::gen_streams::unsigned;
use crate::random::Random;

const NODES: usize = 9;

/// A trie before its layout: what stands in each node before its children, and its edges.
#[derive(Default)]
struct Draft {
    heads: Vec<Vec<u8>>,
    /// From, to and the name on it.
    edges: Vec<(usize, usize, [u8; 3], usize)>,
}

/// The terminal part of a node.
fn head(random: &mut Random) -> Vec<u8> {
    if random.once_in(3) {
        return vec![0];
    }
    let mut area = Vec::new();
    let flags = match random.below(40) {
        0 => random.number(),
        _ => random.below(64) as u64,
    };
    unsigned(random, flags, &mut area);
    let value = random.number();
    unsigned(random, value, &mut area);
    if flags & 0x08 != 0 {
        area.extend_from_slice(&b"_imported"[random.below(10)..]);
        area.push(0);
    } else if flags & 0x10 != 0 {
        let resolver = random.number();
        unsigned(random, resolver, &mut area);
    }
    // Spare bytes are ignored.
    for _ in 0..random.below(8).saturating_sub(5) {
        area.push(random.byte());
    }
    let mut head = Vec::new();
    unsigned(random, area.len() as u64, &mut head);
    head.extend(area);
    head
}

fn edge(random: &mut Random, from: usize, to: usize, draft: &mut Draft) {
    let name = [b'a' + random.byte() % 26, 0x80 | random.byte(), b'_'];
    draft.edges.push((from, to, name, random.below(4)));
}

fn draft(random: &mut Random) -> Draft {
    let mut draft = Draft::default();
    for node in 0..1 + random.below(NODES) {
        draft.heads.push(head(random));
        if node > 0 {
            let parent = if random.once_in(3) {
                node - 1
            } else {
                random.below(node)
            };
            edge(random, parent, node, &mut draft);
        }
    }
    for _ in 0..random.below(6).saturating_sub(3) {
        // To any node: a shared one, or one that is open.
        let (from, to) = (
            random.below(draft.heads.len()),
            random.below(draft.heads.len()),
        );
        edge(random, from, to, &mut draft);
    }
    draft
}

/// A trie. Each child offset has two bytes, so that the layout does not depend on its value.
pub fn trie(random: &mut Random, bytes: &mut Vec<u8>) {
    let draft = draft(random);
    let children = |node| draft.edges.iter().filter(move |edge| edge.0 == node);
    let mut offsets = [0; NODES + 1];
    for (node, head) in draft.heads.iter().enumerate() {
        let edges: usize = children(node).map(|edge| edge.3 + 3).sum();
        offsets[node + 1] = offsets[node] + head.len() + 1 + edges;
    }
    bytes.clear();
    for (node, head) in draft.heads.iter().enumerate() {
        bytes.extend_from_slice(head);
        bytes.push(children(node).count() as u8);
        for (_, to, name, length) in children(node) {
            bytes.extend_from_slice(&name[..*length]);
            let offset = offsets[*to];
            bytes.extend_from_slice(&[0, offset as u8 | 0x80, (offset >> 7) as u8]);
        }
    }
}

/// A trie in which so many nodes stand one under the other, each an export if asked for.
pub fn chain(nodes: usize, exports: bool, edge: &[u8], bytes: &mut Vec<u8>) {
    bytes.clear();
    let head: &[u8] = if exports { &[2, 0, 7] } else { &[0] };
    let length = head.len() + 1 + edge.len() + 3;
    for node in 1..=nodes {
        bytes.extend_from_slice(head);
        bytes.push(u8::from(node < nodes));
        if node < nodes {
            let offset = node * length;
            bytes.extend_from_slice(edge);
            bytes.extend_from_slice(&[0, offset as u8 | 0x80, (offset >> 7) as u8]);
        }
    }
}
