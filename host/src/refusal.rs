//! Why the library gives no more: the refusals, in one table.

use std::error::Error;
use std::fmt;

/// Makes the refusals out of their table. A row has the number by which the library answers, the
/// name, plain words, and the sentence that says exactly when it is given, as docs/REFUSALS.md has it.
macro_rules! refusals {
    ($($number:literal $name:ident $words:literal $sentence:literal;)*) => {
        /// The refusals, each with the number by which the library answers it.
        ///
        /// Numbers are added now and then, and not in order: a match has to have a `_`.
        #[derive(Clone, Copy, Debug, PartialEq, Eq, Hash, PartialOrd, Ord)]
        #[non_exhaustive]
        #[repr(u8)]
        pub enum Refusal {
            $(
                #[doc = concat!($words, " (", $number, ")")]
                $name = $number,
            )*
        }

        impl Refusal {
            /// All that this crate knows, in the order of its table.
            pub const ALL: &'static [Refusal] = &[$(Refusal::$name),*];

            /// Plain words for it, as `Display` gives them.
            #[must_use]
            pub const fn words(self) -> &'static str {
                match self {
                    $(Refusal::$name => $words,)*
                }
            }

            /// Exactly when it is given.
            #[must_use]
            pub const fn given_when(self) -> &'static str {
                match self {
                    $(Refusal::$name => $sentence,)*
                }
            }
        }
    };
}

refusals! {
    1 PointerSize "pointer size is neither 4 nor 8"
        "pointer size is neither 4 nor 8, at a start";
    2 UnknownOpcode "opcode that this reader does not know"
        "opcode not in the list";
    3 FaultyOperand "operand cut off or malformed"
        "LEB128 or string operand of an opcode is faulty";
    4 OrdinalTooLarge "library number too large"
        "ULEB library ordinal above 2147483647";
    5 NoSegment "place before any segment was chosen"
        "a place is due, and the segment is unset";
    6 NoType "place before any type was chosen"
        "a place is due, and the type is unset but not the segment";
    7 NoLibrary "bind before any library was chosen"
        "a place is due, and the library is unset but neither segment nor type";
    8 NoSymbol "bind before any symbol was named"
        "a place is due, and only the symbol is unset";
    9 FaultyChains "chained fixups do not fit their bytes"
        "chained header, starts or segment record do not fit, or record size below 22";
    10 UnknownVersion "version of chained fixups that this reader does not know"
        "fixups version is not 0";
    11 UnsupportedFormat "format that this reader does not know"
        "pointer format, import format or symbols format unsupported";
    12 BeyondStarts "page or chain beyond the list of starts"
        "page index or chain index at or beyond the starts list";
    13 PointerOutside "chained pointer outside the segment's bytes"
        "4 or 8 pointer bytes do not lie in the segment's bytes";
    14 FaultyImport "import does not fit its bytes"
        "imports or symbols offset beyond the data; import record does not fit; \
         name offset beyond symbols; no NUL";
    15 FaultyNode "trie node or edge malformed"
        "trie node or edge faulty";
    16 ChildIsOpen "trie node is its own ancestor"
        "child offset is that of an open node";
    17 TooManyOpenNodes "too many trie nodes open at once"
        "a 257th node would be opened";
    18 NameTooLong "exported name longer than the room for it"
        "name longer than the lent name buffer";
    19 StateOutOfRange "walk state that no walk can have"
        "state out of range: a read place beyond the lent slice, a pointer size not 4 or 8, \
         a page walk's format not 2, 3 or 6, more than 256 open nodes, \
         a kept name longer than the lent buffer, or a page offset above 65,535 × 65,535";
    20 PlaceOutside "place outside its segment"
        "preflight: a place is outside its segment";
    21 UnfitSizes "too many segment sizes, or one too large"
        "preflight: more than 16 sizes, or one above 2^62";
}

impl Refusal {
    /// The number by which the library answers it.
    #[must_use]
    pub const fn number(self) -> u64 {
        self as u64
    }
}

impl fmt::Display for Refusal {
    fn fmt(&self, f: &mut fmt::Formatter<'_>) -> fmt::Result {
        f.write_str(self.words())
    }
}

impl Error for Refusal {}

impl TryFrom<u64> for Refusal {
    type Error = NoRefusal;

    /// The refusal of a number.
    ///
    /// # Errors
    ///
    /// [`NoRefusal`] where this crate knows no refusal of that number.
    fn try_from(number: u64) -> Result<Refusal, NoRefusal> {
        let all = Refusal::ALL.iter();
        let found = all.copied().find(|refusal| refusal.number() == number);
        found.ok_or(NoRefusal(number))
    }
}

/// A number that no refusal has.
#[derive(Clone, Copy, Debug, PartialEq, Eq)]
pub struct NoRefusal(pub u64);

impl fmt::Display for NoRefusal {
    fn fmt(&self, f: &mut fmt::Formatter<'_>) -> fmt::Result {
        write!(f, "no refusal has the number {}", self.0)
    }
}

impl Error for NoRefusal {}
