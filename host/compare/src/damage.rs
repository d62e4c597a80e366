//! Damaged copies.

use crate::random::Random;

/// Flips a bit, changes a byte, cuts, inserts, or doubles a part.
pub fn damage(random: &mut Random, bytes: &mut Vec<u8>) {
    for _ in 0..1 + random.below(2) {
        let at = random.below(bytes.len() + 1);
        match random.below(6) {
            0 if at < bytes.len() => bytes[at] ^= 1 << random.below(8),
            1 if at < bytes.len() => bytes[at] = random.pick(&[0, 1, 0x7f, 0x80, 0xff]),
            2 => bytes.truncate(at),
            3 => bytes.insert(at, random.byte()),
            4 if at < bytes.len() => {
                bytes.remove(at);
            }
            5 => {
                let end = (at + random.below(8)).min(bytes.len());
                bytes.extend_from_within(at..end);
            }
            _ => (),
        }
    }
}
