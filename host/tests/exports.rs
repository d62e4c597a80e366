//! Exports walks, by the rules of the trie.

mod common;

use brinetrellis::{Error, Export, Exports, Found, Progress, Refusal, Target};
use common::{chain, hanging, SHARED};

/// The name of an export, its flags, and what it stands for.
type Told<'a> = (Vec<u8>, u8, Target<'a>);

fn regular(name: &[u8], flags: u8, address: u64) -> Told<'static> {
    (name.to_vec(), flags, Target::Regular { address })
}

fn told(export: Export<'_>) -> Told<'_> {
    (export.name, export.flags, export.target)
}

/// What the walk says next.
fn next<'a>(walk: &mut Exports<'a>) -> Option<Result<Told<'a>, Error>> {
    walk.next().map(|next| next.map(told))
}

fn walk(trie: &[u8]) -> Exports<'_> {
    Exports::new(trie).expect("a start")
}

fn with_room(trie: &[u8], room: usize) -> Exports<'_> {
    Exports::with_room(trie, room).expect("a start")
}

fn all(trie: &[u8]) -> Result<Vec<Told<'_>>, Error> {
    walk(trie).map(|next| next.map(told)).collect()
}

/// `a` at 8, which exports 1; below it `ab` at 15, which exports 2; and `b`, the same node as `ab`.
const NESTED: &[u8] = &[
    0x00, 0x02, b'a', 0x00, 0x08, b'b', 0x00, 0x0f, // the root, at 0
    0x02, 0x00, 0x01, 0x01, b'b', 0x00, 0x0f, // at 8
    0x02, 0x00, 0x02, 0x00, // at 15
];

fn nested() -> Vec<Told<'static>> {
    [(&b"a"[..], 1), (b"ab", 2), (b"b", 2)]
        .map(|(name, address)| regular(name, 0, address))
        .to_vec()
}

#[test]
fn a_node_that_is_not_open_is_listed_again() {
    let exports = [regular(b"ab", 1, 16), regular(b"c", 1, 16)];
    assert_eq!(all(SHARED).expect("exports"), exports);
}

#[test]
fn a_node_comes_before_its_children_and_edges_in_their_order() {
    assert_eq!(all(NESTED).expect("exports"), nested());
}

#[test]
fn the_root_exports_the_empty_name() {
    let exports = [regular(b"", 2, 128)];
    assert_eq!(all(b"\x03\x02\x80\x01\x00").expect("exports"), exports);
}

#[test]
fn a_reexport_has_a_library_and_a_name() {
    // Eight bytes: the flags, library 2, `_x`, and three that are spare. Bit 0x08 goes before 0x10.
    for flags in [0x08, 0x18] {
        let trie = [0x08, flags, 0x02, b'_', b'x', 0x00, 9, 9, 9, 0x00];
        let exports = all(&trie).expect("exports");
        let target = Target::Reexport {
            library: 2,
            name: b"_x",
        };
        assert_eq!(exports, [(Vec::new(), flags, target)]);
        // The name is a part of the trie.
        match exports[0].2 {
            Target::Reexport { name, .. } => assert_eq!(name.as_ptr(), trie[3..].as_ptr()),
            _ => panic!("no re-export"),
        }
    }
}

#[test]
fn a_stub_has_a_resolver() {
    let exports = all(b"\x03\x10\x20\x30\x00").expect("exports");
    let target = Target::StubAndResolver {
        stub: 0x20,
        resolver: 0x30,
    };
    assert_eq!(exports[0].2, target);
}

#[test]
fn flags_have_six_bits() {
    assert_eq!(all(b"\x02\x27\x05\x00").expect("exports")[0].1, 0x27);
    assert_eq!(
        all(b"\x03\x40\x05\x05\x00"),
        Err(Refusal::FaultyNode.into())
    );
}

#[test]
fn export_data_end_with_their_area() {
    // One byte of data, the flags: the address would be behind the area.
    assert_eq!(all(b"\x01\x00\x00"), Err(Refusal::FaultyNode.into()));
    // The area would be behind the trie.
    assert_eq!(all(b"\x04\x00\x00\x00"), Err(Refusal::FaultyNode.into()));
}

#[test]
fn faulty_tries() {
    // No root; no number of children; no edge; no NUL; no offset; no child at the offset.
    let tries: [&[u8]; 6] = [
        b"",
        b"\x00",
        b"\x00\x01",
        b"\x00\x01a",
        b"\x00\x01a\x00",
        b"\x00\x01a\x00\x05",
    ];
    for trie in tries {
        assert_eq!(all(trie), Err(Refusal::FaultyNode.into()), "{trie:?}");
    }
}

#[test]
fn exports_before_a_refusal_are_listed() {
    // `a`, at 8, exports 5; `b` leads back to the root.
    let trie = b"\x00\x02a\x00\x08b\x00\x00\x02\x00\x05\x00";
    let mut walk = walk(trie);
    assert_eq!(next(&mut walk), Some(Ok(regular(b"a", 0, 5))));
    assert_eq!(next(&mut walk), Some(Err(Refusal::ChildIsOpen.into())));
    assert_eq!(next(&mut walk), None);
}

#[test]
fn a_limit_stops_between_nodes() {
    // The root, `a`, `ab` and `b` are visited: the first has no export. After `b` the walk has nothing
    // left, so the end is said and not that there is more.
    let mut walk = walk(NESTED);
    let more = |visits| Progress {
        visits,
        found: Found::More,
    };
    assert_eq!(walk.next_within(0), more(0));
    assert_eq!(walk.next_within(1), more(1));
    assert_eq!(walk.next_within(0), more(0));
    for expected in nested() {
        let progress = walk.next_within(1);
        assert_eq!(progress.visits, 1);
        assert!(
            matches!(progress.found, Found::Export(export) if told(export.clone()) == expected)
        );
    }
    let end = Progress {
        visits: 0,
        found: Found::End,
    };
    assert_eq!(walk.next_within(1), end);
    // At any limit.
    assert_eq!(walk.next_within(0), end);
    assert_eq!(walk.next_within(9), end);
}

#[test]
fn a_refusal_counts_the_visits_before_it() {
    // The root and an empty node `a`; then an edge to the root.
    let trie = b"\x00\x02a\x00\x08b\x00\x00\x00\x00";
    let mut walk = walk(trie);
    let refused = Progress {
        visits: 2,
        found: Found::Failed(Refusal::ChildIsOpen.into()),
    };
    assert_eq!(walk.next_within(9), refused);
    let end = Progress {
        visits: 0,
        found: Found::End,
    };
    assert_eq!(walk.next_within(9), end);
}

#[test]
fn the_exports_do_not_depend_on_the_limits() {
    for limit in 1..6 {
        let mut walk = walk(NESTED);
        let (mut exports, mut visits) = (Vec::new(), 0);
        loop {
            let progress = walk.next_within(limit);
            assert!(progress.visits <= limit);
            visits += progress.visits;
            match progress.found {
                Found::Export(export) => exports.push(told(export)),
                Found::More => {}
                Found::End => break,
                Found::Failed(error) => panic!("{error}"),
            }
        }
        assert_eq!((exports, visits), (nested(), 4), "limit {limit}");
    }
}

#[test]
fn a_walk_is_paused_with_its_names() {
    let mut exports = Vec::new();
    let mut walk = walk(NESTED);
    while let Some(export) = next(&mut walk) {
        exports.push(export.expect("an export"));
        let (state, name) = walk.into_state();
        walk = Exports::from_state(NESTED, state, name);
    }
    assert_eq!(exports, nested());
}

#[test]
fn names_take_the_room_that_there_is() {
    let mut walk = with_room(SHARED, 2);
    assert_eq!(next(&mut walk), Some(Ok(regular(b"ab", 1, 16))));
    assert_eq!(next(&mut walk), Some(Ok(regular(b"c", 1, 16))));
    assert_eq!(next(&mut walk), None);
    let mut walk = with_room(SHARED, 1);
    assert_eq!(next(&mut walk), Some(Err(Refusal::NameTooLong.into())));
    assert_eq!(next(&mut walk), None);
    // Without any room, the empty name is one that fits.
    let mut walk = with_room(b"\x02\x00\x05\x00", 0);
    assert_eq!(next(&mut walk), Some(Ok(regular(b"", 0, 5))));
}

#[test]
fn no_more_than_256_nodes_are_open() {
    let exports = [regular(b"", 0, 7)];
    assert_eq!(all(&chain(256)).expect("exports"), exports);
    assert_eq!(all(&chain(257)), Err(Refusal::TooManyOpenNodes.into()));
}

#[test]
fn a_trie_with_more_nodes_than_can_be_visited_is_answered() {
    let trie = hanging();
    assert_eq!(trie.len(), 402);
    let mut walk = walk(&trie);
    let nodes = 1_000_000;
    assert_eq!(next(&mut walk), Some(Err(Error::Budget { nodes })));
    // A loop that passes over errors ends.
    assert_eq!(next(&mut walk), None);
    assert_eq!(next(&mut walk), None);
    // The trie is not refused: there are more nodes, and the walk can go on to them.
    let more = |visits| Progress {
        visits,
        found: Found::More,
    };
    assert_eq!(walk.next_within(1000), more(1000));
    let (state, name) = walk.into_state();
    let mut again = Exports::from_state(&trie, state, name).with_budget(1000);
    assert_eq!(next(&mut again), Some(Err(Error::Budget { nodes: 1000 })));
    assert_eq!(next(&mut again), None);
}

#[test]
fn a_budget_is_that_of_one_item() {
    // The root, `a`, `ab` and `b`: two nodes to the first export, one to each of the others.
    let mut walk = walk(NESTED).with_budget(2);
    for export in nested() {
        assert_eq!(next(&mut walk), Some(Ok(export)));
    }
    assert_eq!(next(&mut walk), None);
    let mut short = Exports::new(NESTED).expect("a start").with_budget(1);
    assert_eq!(next(&mut short), Some(Err(Error::Budget { nodes: 1 })));
    assert_eq!(next(&mut short), None);
}

#[test]
fn a_refusal_comes_before_the_end_of_the_budget() {
    // The root alone; then an edge to the root.
    let trie = b"\x00\x01a\x00\x00";
    let refused = Some(Err(Refusal::ChildIsOpen.into()));
    assert_eq!(next(&mut walk(trie).with_budget(2)), refused);
}
