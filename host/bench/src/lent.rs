//! What is lent to both sides.

/// Segments of this size have all places of all streams inside.
pub const ROOM: u64 = 1 << 40;
/// The streams point into this many segments.
const SEGMENTS: usize = 3;

/// The input of a walk or a preflight.
#[derive(Clone)]
pub struct Lent {
    /// The stream, the trie or the chained fixups.
    pub bytes: Vec<u8>,
    pub pointer_size: u8,
    /// The bytes of the segment that chains lie in, and the base address.
    pub contents: Vec<u8>,
    pub base: u64,
    /// The sizes of segments for a preflight, as numbers and as the C boundary takes them.
    pub sizes: Vec<u64>,
    pub packed: Vec<u8>,
}

impl Lent {
    /// For a walk.
    pub fn bytes(bytes: Vec<u8>) -> Lent {
        Lent {
            bytes,
            pointer_size: 8,
            contents: Vec::new(),
            base: 0x1_0000_0000,
            sizes: Vec::new(),
            packed: Vec::new(),
        }
    }

    /// For a preflight, with segments in which all places are inside.
    pub fn judged(bytes: Vec<u8>) -> Lent {
        Lent::bytes(bytes).with_room(ROOM)
    }

    /// The same with segments of one size.
    pub fn with_room(&self, room: u64) -> Lent {
        let sizes = vec![room; SEGMENTS];
        let packed = sizes.iter().flat_map(|size| size.to_le_bytes()).collect();
        Lent {
            sizes,
            packed,
            ..self.clone()
        }
    }
}
