//! The reader's exports walk, with node limits and a name buffer.

use crate::ours::{handed_back, words, Breach, Mark, MORE};
use brinetrellis::raw;
use oracle::{Answers, END, ITEM};

/// The bytes of a trie walk's state.
pub const STATE: usize = 6416;
/// The most bytes of a name buffer here.
pub const ROOM: usize = 4096;
/// The word that marks the state as ended.
pub const MARK: Mark = Mark::Word(1);
/// Once in so many walks the states are looked at: they are long.
const LOOKED_AT: u64 = 8;

/// The most calls of a walk.
const CALLS: usize = 20_000;

/// What is lent to the walks: kept, since it is long.
#[derive(Debug)]
pub struct Desk {
    state: [u8; STATE],
    before: [u8; STATE],
    name: [u8; ROOM],
    walks: u64,
}

impl Default for Desk {
    fn default() -> Desk {
        Desk {
            state: [0xa5; STATE],
            before: [0; STATE],
            name: [0; ROOM],
            walks: 0,
        }
    }
}

impl Desk {
    /// The walk to its first end or refusal, each call with the next limit, joined: exports, the
    /// ending and how many nodes were visited.
    pub fn walk(
        &mut self,
        bytes: &[u8],
        room: usize,
        mut limit: impl FnMut() -> u64,
        answers: &mut Answers,
    ) -> Breach {
        self.walks += 1;
        if raw::trie_start(&mut self.state) != 0 {
            return Some("the start of an exports walk is refused");
        }
        let looked_at = self.walks.is_multiple_of(LOOKED_AT);
        let (mut item, mut visits) = ([0xa5; 72], 0);
        for _ in 0..CALLS {
            if looked_at {
                self.before = self.state;
            }
            let most = limit();
            let name = &mut self.name[..room];
            let answer = raw::trie_step(bytes, &mut self.state, name, most, &mut item);
            let told = words(&item);
            visits = told[0].wrapping_add(visits);
            if let Some(breach) = broken(answer, most, &told) {
                return Some(breach);
            }
            match answer {
                ITEM => note(bytes, &self.name[..room], &told, answers),
                MORE => (),
                _ => {
                    answers.number(answer);
                    answers.number(visits);
                    return looked_at.then(|| self.ended(bytes, room, answer)).flatten();
                }
            }
        }
        Some("the walk does not come to its end")
    }

    /// A refusal hands back the state, marked. A walk that has answered End or a refusal says End at
    /// any limit, and changes nothing.
    fn ended(&mut self, bytes: &[u8], room: usize, answer: u64) -> Breach {
        if answer != END && !handed_back(&self.before, &self.state, MARK) {
            return Some("a refusal hands back another state than the one given, marked");
        }
        self.before = self.state;
        for limit in [0, 5] {
            let (mut item, name) = ([0xa5; 72], &mut self.name[..room]);
            let answer = raw::trie_step(bytes, &mut self.state, name, limit, &mut item);
            if answer != END || item != [0; 72] || self.state != self.before {
                return Some("a walk that has ended does not just say the end");
            }
        }
        None
    }
}

/// What an answer breaks by itself.
fn broken(answer: u64, most: u64, told: &[u64; 9]) -> Breach {
    if told[0] > most {
        Some("more nodes are visited than the limit allows")
    } else if answer != ITEM && told[1..] != [0; 8] {
        Some("an export is written where none is answered")
    } else if answer == MORE && told[0] != most {
        Some("More is answered before the limit")
    } else {
        None
    }
}

fn note(bytes: &[u8], name: &[u8], told: &[u64; 9], answers: &mut Answers) {
    answers.item(&told[1..]);
    answers.name(name.get(..told[1] as usize).unwrap_or(b"(no such name)"));
    let import = bytes
        .get(told[7] as usize..)
        .and_then(|rest| rest.get(..told[8] as usize));
    answers.name(import.unwrap_or(b"(no such name)"));
}
