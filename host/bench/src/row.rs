//! A row: a name, an input, and what both sides make of it.

use crate::lent::{Lent, ROOM};
use crate::sides::{Answer, Sides};

pub struct Row {
    pub what: String,
    /// Items of a walk, operations of a preflight.
    pub items: u64,
    pub lent: Lent,
    pub sides: Sides,
}

impl Row {
    /// An error where the library refuses the input.
    pub fn new(what: impl Into<String>, lent: Lent, sides: Sides) -> Result<Row, String> {
        let what = what.into();
        let items = (sides.items)(&lent).map_err(|text| format!("{what}: {text}"))?;
        Ok(Row {
            what,
            items,
            lent,
            sides,
        })
    }

    /// Whether both sides answer the same; of a preflight also with smaller segments, in which not
    /// every place is inside.
    pub fn compare(&self) -> Result<(), String> {
        self.same(&self.lent)?;
        if self.lent.sizes.is_empty() {
            return Ok(());
        }
        let least = self.least()?;
        [least, least - 1, least / 64]
            .iter()
            .try_for_each(|room| self.same(&self.lent.with_room(*room)))
    }

    fn same(&self, lent: &Lent) -> Result<(), String> {
        let (ours, rust) = ((self.sides.ours)(lent), (self.sides.rust)(lent));
        if ours == rust {
            return Ok(());
        }
        let (what, sizes) = (&self.what, &lent.sizes);
        Err(format!(
            "{what}, sizes {sizes:?}: ours says {ours:?}, the Rust {rust:?}"
        ))
    }

    /// The smallest size of all segments with which the library's preflight passes.
    fn least(&self) -> Result<u64, String> {
        let ours = |room| -> Answer { (self.sides.ours)(&self.lent.with_room(room)) };
        let (mut faulty, mut passes) = (0, ROOM);
        if ours(faulty)[0] == 0 || ours(passes)[0] != 0 {
            return Err(format!("{}: no size of segments decides", self.what));
        }
        while passes - faulty > 1 {
            let middle = faulty + (passes - faulty) / 2;
            if ours(middle)[0] == 0 {
                passes = middle;
            } else {
                faulty = middle;
            }
        }
        Ok(passes)
    }
}
