//! The program `dump` prints what the Rust crate answered, in cases that were recorded.

mod common;

use common::recorded::{documented, spread};

#[test]
fn the_documented_cases() {
    for question in documented() {
        question.ask();
    }
}

/// A test for each kind of case.
macro_rules! spreads {
    ($($name:ident: $beginning:literal;)*) => {
        $(
            #[test]
            fn $name() {
                for question in spread($beginning) {
                    question.ask();
                }
            }
        )*
    };
}

spreads! {
    rebase_streams: "rebase ";
    plain_bind_streams: "plain ";
    weak_bind_streams: "weak ";
    lazy_bind_streams: "lazy ";
    preflights_of_rebase_streams: "preflight rebase ";
    preflights_of_plain_bind_streams: "preflight plain ";
    preflights_of_weak_bind_streams: "preflight weak ";
    preflights_of_lazy_bind_streams: "preflight lazy ";
    tries: "trie ";
    segments: "segments ";
    imports: "imports ";
    fixups_of_segments: "pages ";
}
