//! The crate's walk over the exports.

use crate::endian::LittleEndian;
use crate::glue::number_failed;
use crate::read::macho::{ExportData, ExportSymbol};
use crate::streams::{command, place};
use crate::texts::number;
use crate::{Answers, END};

/// The words of an export: length of the name, flags, kind, address, resolver, ordinal, place and
/// size of the import name. (The boundary's item has the visits before them, which the crate does
/// not count.)
fn words(bytes: &[u8], export: &ExportSymbol<'_>) -> [u64; 8] {
    let mut words = [
        export.name().len() as u64,
        export.flags().0,
        0,
        0,
        0,
        0,
        0,
        0,
    ];
    match *export.data() {
        ExportData::Regular { address } => words[3] = address,
        ExportData::Reexport {
            dylib_ordinal,
            import_name,
        } => {
            words[2] = 1;
            words[5] = dylib_ordinal;
            words[6] = place(bytes, import_name);
            words[7] = import_name.len() as u64;
        }
        ExportData::StubAndResolver {
            stub_address,
            resolver_address,
        } => {
            words[2] = 2;
            words[3] = stub_address;
            words[4] = resolver_address;
        }
    }
    words
}

/// The walk up to its first end or error: the crate goes on behind an error, the reader does not.
/// The names are each export's, followed by its import name. The caller makes sure that the trie is
/// not too large to walk: nodes may be shared.
pub fn trie(bytes: &[u8], answers: &mut Answers) {
    answers.clear();
    // A number that failed in another walk is none of this one's.
    number_failed();
    let mut walk = command(bytes.len())
        .exports_trie(LittleEndian, bytes)
        .expect("the part is there");
    loop {
        match walk.next() {
            Ok(None) => return answers.number(END),
            Ok(Some(export)) => {
                answers.item(&words(bytes, &export));
                answers.name(export.name());
                if let ExportData::Reexport { import_name, .. } = export.data() {
                    answers.name(import_name);
                }
            }
            Err(error) => return answers.number(number(error)),
        }
    }
}
