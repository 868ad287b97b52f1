//! Finds the archive of the proved library and has it linked in.

use std::env;
use std::path::{Path, PathBuf};
use std::process::exit;

fn main() {
    println!("cargo:rerun-if-changed=build.rs");
    println!("cargo:rerun-if-env-changed=CHELMESUT_LIB_DIR");
    let folder = match env::var_os("CHELMESUT_LIB_DIR") {
        Some(named) => PathBuf::from(named),
        None => built_here(),
    };
    let archive = folder.join("libchelmesut.a");
    println!("cargo:rerun-if-changed={}", archive.display());
    if !archive.is_file() {
        eprintln!("{} is not there.", archive.display());
        eprintln!("Run 'make lib' or 'make rust' at the top of the repository, which prove the");
        eprintln!("library and make it, or name the folder that has it in CHELMESUT_LIB_DIR.");
        exit(1);
    }
    println!("cargo:rustc-link-search=native={}", folder.display());
    println!("cargo:rustc-link-lib=static=chelmesut");
}

/// Where the repository's own build puts the archive: the prover compiles for x86-64, and the
/// archive for another processor stands in a folder of that processor's name.
fn built_here() -> PathBuf {
    let top = Path::new(&variable("CARGO_MANIFEST_DIR")).join("../../target/staticlib");
    match variable("CARGO_CFG_TARGET_ARCH").as_str() {
        "x86_64" => top,
        other => top.join(other),
    }
}

fn variable(name: &str) -> String {
    env::var(name).expect("cargo sets this for every build script")
}
