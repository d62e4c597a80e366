//! Links liblaps.a, from the folder BRINETRELLIS_LIBRARY, which `.ci/host bench` sets, and tells the
//! package how it is compiled.

use std::env;
use std::path::PathBuf;
use std::process::Command;

const VARIABLE: &str = "BRINETRELLIS_LIBRARY";

fn main() {
    let folder = PathBuf::from(env::var_os(VARIABLE).unwrap_or_default());
    let archive = folder.join("liblaps.a");
    println!("cargo:rerun-if-env-changed={VARIABLE}");
    println!("cargo:rerun-if-changed={}", archive.display());
    if archive.is_file() {
        println!("cargo:rustc-link-search=native={}", folder.display());
        println!("cargo:rustc-link-lib=static=laps");
    } else {
        println!("cargo:warning=no {}: nothing links", archive.display());
    }
    println!("cargo:rustc-env=BENCH_RUSTC={}", rustc());
    println!("cargo:rustc-env=BENCH_COMPILED={}", compiled());
}

/// The compiler's version.
fn rustc() -> String {
    let rustc = env::var_os("RUSTC").expect("cargo sets it");
    let said = Command::new(rustc).arg("--version").output();
    let said = said.expect("rustc runs").stdout;
    String::from_utf8_lossy(&said).trim().to_string()
}

/// How far the Rust is optimised. Cargo does not tell a build script of LTO: that it is asked for in
/// the environment does.
fn compiled() -> String {
    let asked = |variable, value| {
        println!("cargo:rerun-if-env-changed={variable}");
        env::var(variable).as_deref() == Ok(value)
    };
    let level = env::var("OPT_LEVEL").expect("cargo sets it");
    let fat = asked("CARGO_PROFILE_RELEASE_LTO", "fat");
    let one = asked("CARGO_PROFILE_RELEASE_CODEGEN_UNITS", "1");
    if fat && one && env::var("PROFILE").as_deref() == Ok("release") {
        format!("at level {level} and as one module, by fat LTO")
    } else {
        format!("at level {level}, and not as one module")
    }
}
