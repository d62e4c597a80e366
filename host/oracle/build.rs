//! Looks for the published sources that judge, and writes the module file that compiles them where
//! they lie. Nothing of them is copied. Where one is missing the package is built without a judge
//! and says which.

use std::env;
use std::fmt::Write;
use std::fs;
use std::path::{Path, PathBuf};
use std::process::Command;

/// A set of published sources: how a variable names its folder, where it is looked for, which files
/// are needed.
struct Sources {
    title: &'static str,
    variable: &'static str,
    folders: &'static [&'static str],
    files: &'static [&'static str],
}

const CRATE: Sources = Sources {
    title: "the dyld part of object 0.40.0",
    variable: "BRINETRELLIS_CRATE",
    folders: &["../../../shared/docs/src/src"],
    files: &[
        "constants.rs",
        "endian.rs",
        "pod.rs",
        "read/macho/dyld_info.rs",
        "read/macho/exports_trie.rs",
        "read/macho/fixup.rs",
    ],
};

const OBJECT: Sources = Sources {
    title: "object 0.30.0 (Debian's librust-object-dev)",
    variable: "BRINETRELLIS_OBJECT",
    folders: &[
        "/usr/share/cargo/registry/object-0.30.0",
        "../../target/debian/usr/share/cargo/registry/object-0.30.0",
    ],
    files: &["src/macho.rs", "src/read/read_ref.rs", "src/read/util.rs"],
};

const GIMLI: Sources = Sources {
    title: "gimli 0.27.0 (Debian's librust-gimli-dev)",
    variable: "BRINETRELLIS_GIMLI",
    folders: &[
        "/usr/share/cargo/registry/gimli-0.27.0",
        "../../target/debian/usr/share/cargo/registry/gimli-0.27.0",
    ],
    files: &["src/leb128.rs"],
};

/// The features that the foreign files ask for.
const FEATURES: &str =
    r#""names", "read", "read-core", "read_core", "write", "write_core", "cargo-all""#;

impl Sources {
    /// The folder that has all the files, or which one lacks.
    fn find(&self) -> Result<PathBuf, String> {
        println!("cargo:rerun-if-env-changed={}", self.variable);
        let named = env::var_os(self.variable).map(PathBuf::from);
        let folders: Vec<PathBuf> = match named {
            Some(folder) => vec![folder],
            None => self.folders.iter().map(PathBuf::from).collect(),
        };
        for folder in &folders {
            let folder = fs::canonicalize(folder).unwrap_or_else(|_| folder.clone());
            if self.files.iter().all(|file| folder.join(file).is_file()) {
                for file in self.files {
                    println!("cargo:rerun-if-changed={}", folder.join(file).display());
                }
                return Ok(folder);
            }
        }
        for folder in &folders {
            println!("cargo:rerun-if-changed={}", folder.display());
        }
        let looked: Vec<String> = folders.iter().map(|f| f.display().to_string()).collect();
        let (title, variable) = (self.title, self.variable);
        let looked = looked.join(" or ");
        Err(format!(
            "{title}, not in {looked} ({variable} names another folder)"
        ))
    }
}

/// One foreign file as a module.
fn module(text: &mut String, folder: &Path, file: &str, item: &str) {
    let path = folder.join(file);
    writeln!(
        text,
        "#[allow(warnings, clippy::all)]\n#[path = {path:?}]\n{item}"
    )
    .unwrap();
}

/// The module file: the foreign files under the paths that they name each other by.
fn modules(object40: &Path, object30: &Path, gimli: &Path) -> String {
    let mut text = String::new();
    module(
        &mut text,
        object40,
        "constants.rs",
        "#[macro_use] pub mod constants;",
    );
    module(
        &mut text,
        object40,
        "endian.rs",
        "#[macro_use] pub mod endian;",
    );
    module(&mut text, object40, "pod.rs", "#[macro_use] pub mod pod;");
    module(&mut text, object30, "src/macho.rs", "pub mod loader;");
    module(&mut text, gimli, "src/leb128.rs", "pub mod leb128;");
    text.push_str("pub mod read {\npub use crate::glue::*;\n");
    module(&mut text, object30, "src/read/read_ref.rs", "mod read_ref;");
    module(&mut text, object30, "src/read/util.rs", "mod util;");
    text.push_str("pub use read_ref::ReadRef;\npub use util::Bytes;\npub mod macho {\n");
    module(
        &mut text,
        object40,
        "read/macho/dyld_info.rs",
        "mod dyld_info;",
    );
    module(
        &mut text,
        object40,
        "read/macho/exports_trie.rs",
        "mod exports_trie;",
    );
    module(&mut text, object40, "read/macho/fixup.rs", "mod fixup;");
    text.push_str("pub use dyld_info::*;\npub use exports_trie::*;\npub use fixup::*;\n}\n}\n");
    text
}

/// Whether the crate memchr is taken: in a package that is named for it, where rustc allows what is
/// unstable, as is the use of its own crates, and has this one for the target.
fn real_memchr() -> bool {
    println!("cargo:rerun-if-env-changed=RUSTC_BOOTSTRAP");
    let named = env::var("CARGO_PKG_NAME").is_ok_and(|name| name.starts_with("oracle_memchr"));
    let unstable = env::var("RUSTC_BOOTSTRAP").is_ok_and(|value| value == "1");
    named && unstable && in_sysroot("libmemchr-")
}

/// Whether rustc has a library whose file begins so.
fn in_sysroot(beginning: &str) -> bool {
    let variable = |name| env::var_os(name).expect("cargo sets it");
    let mut rustc = Command::new(variable("RUSTC"));
    rustc.args(["--print", "target-libdir", "--target"]);
    let said = rustc.arg(variable("TARGET")).output();
    let said = said.expect("rustc runs").stdout;
    let files = fs::read_dir(String::from_utf8_lossy(&said).trim()).into_iter();
    files.flatten().flatten().any(|file| {
        let name = file.file_name().to_string_lossy().into_owned();
        name.starts_with(beginning) && name.ends_with(".rlib")
    })
}

fn main() {
    // Several packages have this file.
    println!("cargo:rerun-if-changed=../oracle/build.rs");
    println!("cargo:rustc-check-cfg=cfg(live, real_memchr)");
    println!("cargo:rustc-check-cfg=cfg(feature, values({FEATURES}))");
    let found = [CRATE.find(), OBJECT.find(), GIMLI.find()];
    let missing: Vec<&str> = found
        .iter()
        .filter_map(|f| f.as_ref().err())
        .map(String::as_str)
        .collect();
    println!("cargo:rustc-env=ORACLE_MISSING={}", missing.join("; "));
    if let [Ok(object40), Ok(object30), Ok(gimli)] = &found {
        let folder = PathBuf::from(env::var_os("OUT_DIR").expect("cargo sets OUT_DIR"));
        fs::write(folder.join("live.rs"), modules(object40, object30, gimli))
            .expect("OUT_DIR can be written");
        println!("cargo:rustc-cfg=live");
        if real_memchr() {
            println!("cargo:rustc-cfg=real_memchr");
        }
        // The readers in gimli's file are under this feature of it.
        println!("cargo:rustc-cfg=feature=\"read-core\"");
    }
}
