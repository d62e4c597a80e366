//! Links libbrinetrellis.a, from the folder BRINETRELLIS_LIBRARY or from where `.ci/archive` writes the archive for the
//! target.

use std::env;
use std::path::{Path, PathBuf};
use std::process::exit;

const VARIABLE: &str = "BRINETRELLIS_LIBRARY";

/// The target as `.ci/archive` names it.
fn target() -> Option<&'static str> {
    let of_cargo = |what: &str| env::var(format!("CARGO_CFG_TARGET_{what}")).unwrap_or_default();
    match (of_cargo("ARCH").as_str(), of_cargo("OS").as_str()) {
        ("x86_64", "linux") => Some("x86_64-linux"),
        ("aarch64", "linux") => Some("aarch64-linux"),
        ("aarch64", "macos") => Some("arm64-macos"),
        ("x86_64", "macos") => Some("x86_64-macos"),
        _ => None,
    }
}

fn give_up(why: &str) -> ! {
    eprintln!("{why}, or set {VARIABLE} to the folder that has the archive.");
    exit(1)
}

fn main() {
    println!("cargo:rerun-if-env-changed={VARIABLE}");
    let (folder, target) = match (env::var_os(VARIABLE), target()) {
        (Some(folder), target) => (PathBuf::from(folder), target.unwrap_or("TARGET")),
        (None, Some(target)) => {
            let archives = Path::new(env!("CARGO_MANIFEST_DIR")).join("../target/archive");
            (archives.join(target), target)
        }
        (None, None) => give_up("no archive is made for this target: take another"),
    };
    let archive = folder.join("libbrinetrellis.a");
    println!("cargo:rerun-if-changed={}", archive.display());
    if !archive.is_file() {
        give_up(&format!(
            "{} is missing: run `.ci/archive {target}` in the repository",
            archive.display()
        ));
    }
    println!("cargo:rustc-link-search=native={}", folder.display());
    println!("cargo:rustc-link-lib=static=brinetrellis");
}
