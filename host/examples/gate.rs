//! A release gate over one image: every place of its streams must lie in its segments, and what is
//! bound is listed by library and name. The streams here are samples; a gate finds them by the load
//! commands of the image.

use brinetrellis::{preflight, Binds, Error, Rebases, Verdict};
use std::process::ExitCode;

/// Type 1; segment 2 at offset 16; three pointers; Done.
const REBASES: &[u8] = &[0x11, 0x22, 0x10, 0x53, 0x00];

/// Library 1; the symbol `_a`; type 1; segment 2 at offset 8; one bind.
const BINDS: &[u8] = &[0x11, 0x40, 0x5f, 0x61, 0x00, 0x51, 0x72, 0x08, 0x90];

/// The sizes of the segments, in order.
const SIZES: &[u64] = &[0, 0, 40];

/// Whether a stream may ship; what is wrong is printed.
fn passes(what: &str, verdict: Verdict) -> bool {
    match verdict {
        Verdict::Passes { operations } => {
            println!("{what}: {operations} operations");
            true
        }
        Verdict::Fault {
            refusal,
            position,
            index,
        } => {
            println!("{what}: at byte {position}, index {index}: {refusal}");
            false
        }
        Verdict::Unknown { answer } => {
            println!("{what}: the library is of another version, and answers {answer}");
            false
        }
    }
}

/// What the loader patches.
fn list() -> Result<(), Error> {
    for rebase in Rebases::new(REBASES, 8)? {
        let rebase = rebase?;
        println!("segment {} + {}: slides", rebase.segment, rebase.place);
    }
    for bind in Binds::plain(BINDS, 8)? {
        let bind = bind?;
        let name = String::from_utf8_lossy(bind.name);
        println!(
            "segment {} + {}: {name} of library {}",
            bind.segment, bind.place, bind.library
        );
    }
    Ok(())
}

fn main() -> ExitCode {
    let rebases = passes("rebases", preflight::rebases(REBASES, 8, SIZES));
    let binds = passes("binds", preflight::plain_binds(BINDS, 8, SIZES));
    if !(rebases && binds) {
        return ExitCode::FAILURE;
    }
    match list() {
        Ok(()) => ExitCode::SUCCESS,
        Err(error) => {
            println!("not listed: {error}");
            ExitCode::FAILURE
        }
    }
}
