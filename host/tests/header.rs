//! The C header and the Rust of this crate say the same.

use brinetrellis::{answer, record, Refusal};
use std::collections::BTreeMap;

const HEADER: &str = include_str!("../include/brinetrellis.h");
const RAW: &str = include_str!("../src/raw.rs");

/// The numbers of an outside header, which has the names of loader.h.
const NUMBERS: &str = include_str!("../headers/numbers.txt");

/// A number as C writes it: decimal or hexadecimal, in brackets where it is negative.
fn number(text: &str) -> Option<i64> {
    let plain = text.trim_start_matches('(').trim_end_matches(')');
    match plain.strip_prefix("0x") {
        Some(digits) => i64::from_str_radix(digits, 16).ok(),
        None => plain.parse().ok(),
    }
}

/// The numbers that the header defines as macros.
fn defined() -> BTreeMap<String, i64> {
    let prefix = "#define BRINETRELLIS_";
    let lines = HEADER.lines().filter_map(|line| line.strip_prefix(prefix));
    let numbers = lines.filter_map(|line| {
        let (name, value) = line.split_once(' ')?;
        Some((name.to_string(), number(value)?))
    });
    numbers.collect()
}

/// The enum of the answers.
fn answers() -> BTreeMap<String, i64> {
    let code = code();
    let (_, rest) = code
        .split_once("enum brinetrellis_answer {")
        .expect("the enum");
    let (members, _) = rest.split_once('}').expect("its end");
    let members = members.split(',').map(|member| {
        let (name, value) = member.trim().split_once(" = ").expect("a member");
        let name = name.strip_prefix("BRINETRELLIS_").expect("its name");
        (name.to_string(), number(value).expect("a number"))
    });
    members.collect()
}

/// `NoSegment` as `NO_SEGMENT`.
fn upper(name: &str) -> String {
    let mut upper = String::new();
    for letter in name.chars() {
        if letter.is_uppercase() && !upper.is_empty() {
            upper.push('_');
        }
        upper.extend(letter.to_uppercase());
    }
    upper
}

#[test]
fn the_answers_are_the_same() {
    let mut expected = BTreeMap::new();
    for refusal in Refusal::ALL {
        expected.insert(upper(&format!("{refusal:?}")), refusal.number() as i64);
    }
    let others = [
        ("ITEM", answer::ITEM as i64),
        ("END", answer::END as i64),
        ("MORE", answer::MORE as i64),
        ("UNKNOWN_ANSWER", i32::MAX.into()),
    ];
    expected.extend(others.map(|(name, number)| (name.to_string(), number)));
    assert_eq!(answers(), expected);
}

/// The names of an outside header that are constants here: types, flags and special libraries, and
/// the formats that are read.
fn is_constant(name: &str) -> bool {
    let kinds = [
        "REBASE_TYPE_",
        "BIND_TYPE_",
        "BIND_SPECIAL_DYLIB_",
        "BIND_SYMBOL_FLAGS_",
        "EXPORT_SYMBOL_FLAGS_",
    ];
    let formats = [
        "DYLD_CHAINED_PTR_64",
        "DYLD_CHAINED_PTR_32",
        "DYLD_CHAINED_PTR_64_OFFSET",
        "DYLD_CHAINED_IMPORT",
        "DYLD_CHAINED_IMPORT_ADDEND",
        "DYLD_CHAINED_IMPORT_ADDEND64",
    ];
    kinds.iter().any(|kind| name.starts_with(kind)) || formats.contains(&name)
}

#[test]
fn the_constants_are_the_same() {
    let outside = NUMBERS.lines().filter_map(|line| {
        let mut words = line.split_whitespace();
        let name = words.next().filter(|name| is_constant(name))?;
        Some((name, number(words.next()?).expect("a number")))
    });
    let mut expected: BTreeMap<&str, i64> = outside.collect();
    assert_eq!(expected.len(), 3 + 3 + 4 + 2 + 7 + 6);
    expected.extend([
        ("REBASE_STATE", record::REBASE_STATE as i64),
        ("REBASE_ITEM", record::REBASE_ITEM as i64),
        ("BIND_STATE", record::BIND_STATE as i64),
        ("BIND_ITEM", record::BIND_ITEM as i64),
        ("VERDICT", record::VERDICT as i64),
        ("TRIE_STATE", record::TRIE_STATE as i64),
        ("TRIE_ITEM", record::TRIE_ITEM as i64),
        ("SEGMENT_STATE", record::SEGMENT_STATE as i64),
        ("SEGMENT_ITEM", record::SEGMENT_ITEM as i64),
        ("PAGE_STATE", record::PAGE_STATE as i64),
        ("PAGE_ITEM", record::PAGE_ITEM as i64),
        ("IMPORT_STATE", record::IMPORT_STATE as i64),
        ("IMPORT_ITEM", record::IMPORT_ITEM as i64),
        ("PART", record::PART as i64),
        ("OPEN_NODES", record::OPEN_NODES as i64),
        // The kinds, as the boundary has them; tests/c/typed.c meets most of them.
        ("EXPORT_REGULAR", 0),
        ("EXPORT_REEXPORT", 1),
        ("EXPORT_STUB_AND_RESOLVER", 2),
        ("FIXUP_REBASE", 0),
        ("FIXUP_BIND", 1),
    ]);
    let version = ["VERSION_MAJOR", "VERSION_MINOR", "VERSION_PATCH"];
    let numbers = env!("CARGO_PKG_VERSION").split('.').map(number);
    expected.extend(
        version
            .into_iter()
            .zip(numbers.map(|n| n.expect("a number"))),
    );
    let expected = expected.into_iter().map(|(name, n)| (name.to_string(), n));
    assert_eq!(defined(), expected.collect());
}

#[test]
fn the_version_is_the_crates() {
    let line = concat!(
        "\n#define BRINETRELLIS_VERSION \"",
        env!("CARGO_PKG_VERSION"),
        "\"\n"
    );
    assert!(HEADER.contains(line));
}

#[test]
fn the_plain_words_are_the_same() {
    let cases = HEADER.lines().filter_map(|line| {
        let (name, text) = line.trim().split_once(": return \"")?;
        let name = name.strip_prefix("case BRINETRELLIS_")?;
        Some((name.to_string(), text.strip_suffix("\";")?.to_string()))
    });
    let mut expected: BTreeMap<String, String> = Refusal::ALL
        .iter()
        .map(|refusal| (upper(&format!("{refusal:?}")), refusal.to_string()))
        .collect();
    expected.insert("MORE".to_string(), "no refusal".to_string());
    assert_eq!(cases.collect::<BTreeMap<_, _>>(), expected);
}

/// The entry points that a text declares, each with its parameters: the text between the name and the
/// closing bracket, without white space.
fn declared(text: &str, before: &str) -> BTreeMap<String, Vec<String>> {
    let plain = text.split_whitespace().collect::<Vec<_>>().join(" ");
    let found = plain.split(before).skip(1).filter_map(|rest| {
        let (name, rest) = rest.split_once('(')?;
        let (parameters, _) = rest.split_once(')')?;
        let list = parameters.split(',').map(str::trim);
        let list = list.filter(|parameter| !parameter.is_empty());
        Some((name.to_string(), list.map(str::to_string).collect()))
    });
    found.collect()
}

/// A parameter of C, as Rust writes it.
fn in_rust(parameter: &str) -> String {
    let types = [
        ("const uint8_t *", "*const u8"),
        ("uint8_t *", "*mut u8"),
        ("uint64_t ", "u64"),
        ("size_t ", "usize"),
    ];
    for (c, rust) in types {
        if let Some(name) = parameter.strip_prefix(c) {
            return format!("{name}: {rust}");
        }
    }
    panic!("no type that the boundary has: {parameter}")
}

#[test]
fn the_entry_points_are_the_same() {
    let c = declared(HEADER, "uint64_t brinetrellis_");
    let rust = declared(RAW, " fn brinetrellis_");
    let translated = |list: Vec<String>| list.iter().map(|p| in_rust(p)).collect();
    let c: BTreeMap<String, Vec<String>> = c
        .into_iter()
        .map(|(name, list)| (name, translated(list)))
        .collect();
    assert_eq!(c.len(), 19);
    assert_eq!(rust, c);
}

/// The typed functions of the header, each with its body.
fn typed() -> BTreeMap<&'static str, &'static str> {
    let before = "\nBRINETRELLIS_MUST_USE\nstatic inline enum brinetrellis_answer\nbrinetrellis_";
    let found = HEADER.split(before).skip(1).map(|rest| {
        let (name, rest) = rest.split_once('(').expect("parameters");
        let (body, _) = rest.split_once("\n}\n").expect("its end");
        (name, body)
    });
    found.collect()
}

#[test]
fn each_entry_point_has_a_typed_function() {
    // The entry points that the bodies call, one each.
    let called = typed().into_values().map(|body| {
        let (_, call) = body
            .split_once(" number = brinetrellis_")
            .expect("an entry point");
        call.split_once('(').expect("arguments").0.to_string()
    });
    let mut called: Vec<String> = called.collect();
    called.sort();
    let entries: Vec<String> = declared(RAW, " fn brinetrellis_").into_keys().collect();
    assert_eq!(called, entries);
}

#[test]
fn the_records_of_each_typed_function_are_tested_in_c() {
    for (name, body) in typed() {
        let (parameters, _) = body.split_once(") {").expect("a body");
        let records: Vec<&str> = parameters
            .split("struct brinetrellis_")
            .skip(1)
            .map(|rest| rest.split_once(" *").expect("a pointer").0)
            .collect();
        let start = format!("\n#define brinetrellis_{name}(");
        let (_, test) = HEADER.split_once(&start).expect(name);
        let (test, _) = test.split_once("))\n").expect("its end");
        let tested: Vec<&str> = test
            .split("BRINETRELLIS_IS(")
            .skip(1)
            .map(|rest| rest.split_once(',').expect("a record").0)
            .collect();
        assert!(!records.is_empty(), "{name}");
        assert_eq!(tested, records, "{name}");
    }
}

#[test]
fn no_answer_may_be_dropped() {
    let (code, entries) = (code(), declared(RAW, " fn brinetrellis_").len());
    let warned = code.matches("\nBRINETRELLIS_MUST_USE\nuint64_t brinetrellis_");
    assert_eq!(warned.count(), entries);
    assert_eq!(typed().len(), entries);
    let warned = RAW.matches("\n#[must_use]\npub fn ");
    assert_eq!(warned.count(), entries);
}

/// The header without its comments.
fn code() -> String {
    let pieces = HEADER.split("/*").enumerate().map(|(index, piece)| {
        let end = piece.find("*/").map_or(0, |end| end + 2);
        &piece[if index == 0 { 0 } else { end }..]
    });
    pieces.collect()
}

/// The structs, each with the names of its fields in order.
fn structs() -> BTreeMap<String, String> {
    let code = code();
    let found = code.split("\nstruct brinetrellis_").skip(1).map(|text| {
        let (name, rest) = text.split_once(" {").expect("a struct");
        let (fields, _) = rest.split_once('}').expect("its end");
        let name_of = |field: &str| {
            let last = field.split_whitespace().last()?;
            last.split('[').next().map(str::to_string)
        };
        let fields: Vec<String> = fields.split(';').filter_map(name_of).collect();
        (name.to_string(), fields.join(" "))
    });
    found.collect()
}

/// The fields of each record, as the boundary has them.
const FIELDS: [(&str, &str); 14] = [
    (
        "rebase_state",
        "at size remaining advance offset ended segmented typed segment type",
    ),
    ("rebase_item", "segment place type"),
    (
        "bind_state",
        "at size remaining advance offset ended lazy segmented typed sourced named \
         segment type library place length flags addend",
    ),
    (
        "bind_item",
        "segment place type library position length flags addend",
    ),
    ("verdict", "position index"),
    ("trie_state", "depth ended places offsets lengths left"),
    (
        "trie_item",
        "visits length flags kind address resolver library position size",
    ),
    ("segment_state", "place count index"),
    (
        "segment_item",
        "index page_size format offset limit pages position count",
    ),
    (
        "page_state",
        "segment base linked more page chain origin offset ended",
    ),
    ("page_item", "place kind target ordinal addend"),
    ("import_state", "place symbols left format ended"),
    ("import_item", "library weak addend position length"),
    ("part", "position length"),
];

#[test]
fn the_fields_are_in_the_order_of_the_boundary() {
    let expected = FIELDS.map(|(name, fields)| (name.to_string(), fields.to_string()));
    assert_eq!(structs(), BTreeMap::from(expected));
}
