//! Finds `libbrazulint.a`: in the folder that BRAZULINT_LIB names by its whole path, or where the build of the library puts it.

use std::env;
use std::path::{Path, PathBuf};

fn main() {
    println!("cargo:rerun-if-env-changed=BRAZULINT_LIB");
    println!("cargo:rerun-if-changed=build.rs");
    let folder = env::var_os("BRAZULINT_LIB").map_or_else(usual_folder, PathBuf::from);
    let archive = folder.join("libbrazulint.a");
    println!("cargo:rerun-if-changed={}", archive.display());
    if !archive.is_file() {
        println!("cargo:warning={} is not there: build the library, or set BRAZULINT_LIB", archive.display());
    }
    println!("cargo:rustc-link-search=native={}", folder.display());
    println!("cargo:rustc-link-lib=static=brazulint");
}

/// crates/brazulint/out at the root of the repository, two folders above this package.
fn usual_folder() -> PathBuf {
    let package = env::var_os("CARGO_MANIFEST_DIR").expect("cargo says where the package is");
    Path::new(&package).ancestors().nth(2).expect("the package stands in rust/ of the repository").join("crates/brazulint/out")
}
