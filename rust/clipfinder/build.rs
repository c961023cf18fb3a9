//! Links `libfinder.a`, as `.ci/archive` writes it: from `target/staticlib` of the repository,
//! or from the folder that the environment variable CLIPFINDER_LIB names.

use std::env;
use std::path::{Path, PathBuf};

const FROM_MANIFEST: &str = "../../target/staticlib";

fn main() {
    println!("cargo::rerun-if-env-changed=CLIPFINDER_LIB");
    let folder = match env::var_os("CLIPFINDER_LIB") {
        Some(folder) => PathBuf::from(folder),
        None => Path::new(&env::var_os("CARGO_MANIFEST_DIR").expect("cargo sets it")).join(FROM_MANIFEST),
    };
    let archive = folder.join("libfinder.a");
    println!("cargo::rerun-if-changed={}", archive.display());
    if archive.is_file() {
        println!("cargo::rustc-link-search=native={}", folder.display());
        println!("cargo::rustc-link-lib=static=finder");
    } else {
        println!(
            "cargo::error=the finder's library is missing: no file {}. Build it with `.ci/archive`, \
             or name the folder that holds libfinder.a in the environment variable CLIPFINDER_LIB.",
            archive.display()
        );
    }
}
