//! Numbers that are the same for the same seed everywhere (splitmix64).

#[derive(Debug, Clone)]
pub struct Random(u64);

impl Random {
    /// The numbers of one part of a run: other parts have others.
    pub fn new(seed: u64, section: u64, part: u64) -> Random {
        let mut random = Random(seed);
        let mixed =
            random.next() ^ section.rotate_left(32) ^ part.wrapping_mul(0x9e6c_63d0_876a_46a5);
        Random(mixed)
    }

    pub fn next(&mut self) -> u64 {
        self.0 = self.0.wrapping_add(0x9e37_79b9_7f4a_7c15);
        let mut mixed = self.0;
        mixed = (mixed ^ (mixed >> 30)).wrapping_mul(0xbf58_476d_1ce4_e5b9);
        mixed = (mixed ^ (mixed >> 27)).wrapping_mul(0x94d0_49bb_1331_11eb);
        mixed ^ (mixed >> 31)
    }

    /// A number below another one, which is not 0.
    pub fn below(&mut self, bound: usize) -> usize {
        (((self.next() >> 32) * bound as u64) >> 32) as usize
    }

    /// True once in so many times.
    pub fn once_in(&mut self, times: usize) -> bool {
        self.below(times) == 0
    }

    pub fn byte(&mut self) -> u8 {
        (self.next() >> 56) as u8
    }

    pub fn pick<T: Copy>(&mut self, from: &[T]) -> T {
        from[self.below(from.len())]
    }

    /// Mostly a small number, sometimes one at a limit, sometimes any.
    pub fn number(&mut self) -> u64 {
        const LIMITS: [u64; 10] = [
            0x7f,
            0x80,
            0x3fff,
            0x7fff_ffff,
            0x8000_0000,
            1 << 62,
            (1 << 63) - 1,
            1 << 63,
            u64::MAX - 7,
            u64::MAX,
        ];
        match self.below(16) {
            0 => self.pick(&LIMITS),
            1 => self.next() >> self.below(64),
            2 | 3 => (self.below(64) as u64).wrapping_neg(),
            _ => self.below(40) as u64,
        }
    }
}
