//! What a walk answers, call after call, in the numbers of the C boundary.

/// The answer of a call that yields an item.
pub const ITEM: u64 = 0;
/// The answer of a call that says the end.
pub const END: u64 = 256;

/// The answers of one walk, flat so that two of them compare fast: for each call its number, behind
/// 0 the words of the item; and the bytes of all names, joined (the lengths are among the words).
#[derive(Debug, Default, Clone, PartialEq, Eq)]
pub struct Answers {
    pub words: Vec<u64>,
    pub names: Vec<u8>,
}

impl Answers {
    pub fn clear(&mut self) {
        self.words.clear();
        self.names.clear();
    }

    /// A call that yields an item.
    pub fn item(&mut self, words: &[u64]) {
        self.words.push(ITEM);
        self.words.extend_from_slice(words);
    }

    /// A call that says the end or refuses.
    pub fn number(&mut self, number: u64) {
        self.words.push(number);
    }

    /// The bytes of a name of the last item.
    pub fn name(&mut self, bytes: &[u8]) {
        self.names.extend_from_slice(bytes);
    }
}

/// How long a walk is called: until the calls are used up, or it has said the end so many times. A
/// walk may go on behind an end, and says the end behind a refusal.
#[derive(Debug, Clone, Copy, PartialEq, Eq)]
pub struct Bounds {
    pub calls: usize,
    pub ends: usize,
}
