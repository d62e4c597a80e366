//! The verdict on a stream, three times: of the library, found place by place, and of a plain Rust
//! preflight.

use crate::case::Case;
use crate::hex::list;

/// Three verdicts; none that is found place by place where the places are too many.
pub struct Three<'a> {
    pub library: &'a [u64],
    pub by_place: Option<&'a [u64]>,
    pub plain: [u64; 3],
}

/// What the plain Rust preflight says of a case, if it is one.
pub fn plain(case: &Case<'_>) -> Option<[u64; 3]> {
    match *case {
        Case::Preflight {
            stream,
            size,
            sizes,
            bytes,
        } => Some(oracle::preflight(stream, bytes, size, sizes)),
        _ => None,
    }
}

impl Three<'_> {
    /// Which verdict is not like the others, if one is not.
    pub fn odd(&self) -> Option<&'static str> {
        let like = |verdict| self.by_place.is_none_or(|by_place| by_place == verdict);
        match (like(self.library), like(&self.plain)) {
            _ if self.library == self.plain => {
                (!like(self.library)).then_some("the verdict place by place is another")
            }
            (true, true) => Some("the library and the plain preflight differ"),
            (true, false) => Some("the plain preflight differs"),
            (false, true) => Some("the library differs"),
            (false, false) => Some("all three differ"),
        }
    }

    pub fn text(&self) -> String {
        let by_place = self.by_place.map_or("-".to_string(), list);
        let (library, plain) = (list(self.library), list(&self.plain));
        format!("library {library}, place by place {by_place}, plain preflight {plain}")
    }
}
