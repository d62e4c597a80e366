//! States that no walk handed out. Nothing judges what a call makes of them, but the boundary's
//! rules and the range of a state do: slices and fields that are no record answer 19 and nothing is
//! written; a state out of range answers 19 and comes back; all else gives an allowed answer, the
//! same each time, and behind a refusal the end.

use crate::hex;
use crate::judge::Bench;
use crate::ours::{handed_back, Mark, MORE, OUT_OF_RANGE};
use crate::random::Random;
use crate::records::{Entry, Record, ENTRIES};
use oracle::{END, ITEM};

/// The bytes that a call is lent: an input of one or two slices, and the name buffer.
#[derive(Debug, Default)]
pub struct Lent {
    pub bytes: Vec<u8>,
    pub contents: Vec<u8>,
    pub name: Vec<u8>,
    pub limit: u64,
}

/// What a call wrote and answered.
#[derive(Debug, Clone, PartialEq, Eq)]
struct Called {
    answer: u64,
    state: Vec<u8>,
    item: Vec<u8>,
    name: Vec<u8>,
}

/// The bytes around each slice that is written: they show whether a call keeps to it.
const MARGIN: usize = 16;
const MARGIN_BYTE: u8 = 0xc3;

/// A copy of some bytes between two margins.
fn framed(bytes: &[u8]) -> Vec<u8> {
    let mut frame = vec![MARGIN_BYTE; bytes.len() + 2 * MARGIN];
    inner(&mut frame).copy_from_slice(bytes);
    frame
}

fn inner(frame: &mut [u8]) -> &mut [u8] {
    let behind = frame.len() - MARGIN;
    &mut frame[MARGIN..behind]
}

/// The bytes between the margins, if these are as they were.
fn unframed(frame: Vec<u8>) -> Option<Vec<u8>> {
    let (bytes, behind) = frame[MARGIN..].split_at(frame.len() - 2 * MARGIN);
    let margins = frame[..MARGIN].iter().chain(behind);
    margins
        .clone()
        .all(|byte| *byte == MARGIN_BYTE)
        .then(|| bytes.to_vec())
}

/// Calls a step; nothing if it wrote outside of what it was lent to write.
fn call(entry: &Entry, lent: &Lent, state: &[u8], item: usize) -> Option<Called> {
    let (mut state, mut item, mut name) =
        (framed(state), framed(&vec![0xa5; item]), framed(&lent.name));
    let (bytes, contents) = (lent.bytes.clone(), lent.contents.clone());
    let answer = (entry.step)(lent, inner(&mut state), inner(&mut name), inner(&mut item));
    if bytes != lent.bytes || contents != lent.contents {
        return None;
    }
    Some(Called {
        answer,
        state: unframed(state)?,
        item: unframed(item)?,
        name: unframed(name)?,
    })
}

const OUTSIDE: &str = "a call writes outside of what it was lent to write";

/// One case: a random state for one of the steps.
pub fn one(random: &mut Random, lent: &mut Lent, bench: &mut Bench) {
    let entry = &ENTRIES[random.below(ENTRIES.len())];
    lend(random, lent);
    let mut state = Record::random(random, entry, lent);
    bench.cases += 1;
    let found = match random.below(8) {
        0 => wrong_length(random, entry, lent, &state.bytes),
        1 => {
            state.break_type(random, entry);
            no_record(entry, lent, &state.bytes, entry.item)
        }
        _ => any_state(entry, lent, &state),
    };
    if let Some(reason) = found {
        // Of a trie walk's state only the beginning is printed: the seed tells the rest.
        let shown = &state.bytes[..state.bytes.len().min(200)];
        let [bytes, contents, shown] = [&lent.bytes, &lent.contents, shown].map(hex::digits);
        let (room, limit) = (lent.name.len(), lent.limit);
        bench.differ(|| {
            format!(
                "{reason}: {} {bytes} {contents} room {room} limit {limit} state {shown}",
                entry.name
            )
        });
    }
}

fn lend(random: &mut Random, lent: &mut Lent) {
    lent.bytes.clear();
    for _ in 0..random.below(48) {
        let byte = if random.once_in(2) {
            random.byte()
        } else {
            random.byte() & 0x1f
        };
        lent.bytes.push(byte);
    }
    lent.contents.clear();
    for _ in 0..random.below(24) {
        lent.contents.push(random.byte());
    }
    lent.name.clear();
    lent.name.resize(random.below(12), 0x5a);
    lent.limit = random.below(6) as u64;
}

/// A state or an item that is too short or too long is no record.
fn wrong_length(
    random: &mut Random,
    entry: &Entry,
    lent: &Lent,
    state: &[u8],
) -> Option<&'static str> {
    let (mut state, mut item) = (state.to_vec(), entry.item);
    match random.below(4) {
        0 => state.push(0),
        1 => state.truncate(random.pick(&[0, entry.state - 1])),
        2 => item += 1,
        _ => item = random.pick(&[0, entry.item - 1]),
    }
    no_record(entry, lent, &state, item)
}

fn no_record(entry: &Entry, lent: &Lent, state: &[u8], item: usize) -> Option<&'static str> {
    let Some(called) = call(entry, lent, state, item) else {
        return Some(OUTSIDE);
    };
    let untouched = called.state == state && called.name == lent.name;
    if called.answer != OUT_OF_RANGE {
        Some("what is no record is not refused with 19")
    } else if !untouched || called.item.iter().any(|byte| *byte != 0xa5) {
        Some("something is written for what is no record")
    } else {
        None
    }
}

fn any_state(entry: &Entry, lent: &Lent, state: &Record) -> Option<&'static str> {
    let Some(called) = call(entry, lent, &state.bytes, entry.item) else {
        return Some(OUTSIDE);
    };
    if Some(&called) != call(entry, lent, &state.bytes, entry.item).as_ref() {
        return Some("the same call answers another thing");
    }
    if (called.answer == OUT_OF_RANGE) != (entry.out_of_range)(lent, state) {
        return Some("19 is not answered exactly for a state out of range");
    }
    if called.answer != ITEM && called.item[entry.told..].iter().any(|byte| *byte != 0) {
        return Some("an item is written where none is answered");
    }
    let (kept, ended) = (called.state == state.bytes, state.ended(entry));
    match called.answer {
        OUT_OF_RANGE if kept && called.name == lent.name => None,
        OUT_OF_RANGE => Some("a state out of range does not come back"),
        END if ended || (entry.idle)(lent, state) => (!kept).then_some("an idle walk changes"),
        _ if ended || (entry.idle)(lent, state) => Some("an idle walk does not say the end"),
        MORE if entry.told == 8 => {
            (lent.limit == 0 && !kept).then_some("no visit changes the state")
        }
        _ if entry.told == 8 && lent.limit == 0 => Some("no visit is made and More not answered"),
        ITEM | END => None,
        refusal if entry.refusals.contains(&refusal) => refused(entry, lent, state, &called),
        _ => Some("an answer that this walk does not have"),
    }
}

/// Behind a refusal comes the end; the walk over segments goes on.
fn refused(entry: &Entry, lent: &Lent, state: &Record, called: &Called) -> Option<&'static str> {
    if !handed_back(&state.bytes, &called.state, entry.mark) {
        return Some("a refusal hands back another state than the one given, marked");
    }
    let Some(again) = call(entry, lent, &called.state, entry.item) else {
        return Some(OUTSIDE);
    };
    let goes_on = matches!(entry.mark, Mark::Nothing);
    if !goes_on && (again.answer != END || again.state != called.state) {
        return Some("a refused walk does not just say the end");
    }
    None
}
