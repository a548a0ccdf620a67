//! Finds the static library of the proved calls, and has it linked.

use std::env;
use std::path::PathBuf;
use std::process::exit;

fn main() {
    println!("cargo:rerun-if-changed=build.rs");
    println!("cargo:rerun-if-env-changed=SEINEFLUTE_LIB");
    let folder = match env::var_os("SEINEFLUTE_LIB") {
        Some(folder) => PathBuf::from(folder),
        None => here().join("../../target/staticlib"),
    };
    let archive = folder.join("libseineflute.a");
    println!("cargo:rerun-if-changed={}", archive.display());
    if !archive.is_file() {
        eprintln!("{} is missing.", archive.display());
        eprintln!("Make it with `./staticlib` in the repository's root,");
        eprintln!("or set SEINEFLUTE_LIB to the folder that has libseineflute.a.");
        exit(1);
    }
    println!("cargo:rustc-link-search=native={}", folder.display());
    println!("cargo:rustc-link-lib=static=seineflute");
}

/// The folder of this package.
fn here() -> PathBuf {
    PathBuf::from(env::var_os("CARGO_MANIFEST_DIR").expect("cargo sets CARGO_MANIFEST_DIR"))
}
