//! Links `libntp5.a` from `$NTP5_LIB_DIR`, or else from the repository's target folder.
#![forbid(unsafe_code)]

use std::path::PathBuf;
use std::{env, process};

const ARCHIVE: &str = "libntp5.a";

fn main() {
    println!("cargo:rerun-if-env-changed=NTP5_LIB_DIR");
    let folder = env::var_os("NTP5_LIB_DIR").map_or_else(default_folder, PathBuf::from);
    let archive = folder.join(ARCHIVE);
    println!("cargo:rerun-if-changed={}", archive.display());
    if !archive.is_file() {
        eprintln!("{} is missing.", archive.display());
        eprintln!("Run `make lib` at the top of the repository, or set NTP5_LIB_DIR to the folder of {ARCHIVE}.");
        process::exit(1);
    }
    println!("cargo:rustc-link-search=native={}", folder.display());
    println!("cargo:rustc-link-lib=static=ntp5");
}

fn default_folder() -> PathBuf {
    PathBuf::from(env!("CARGO_MANIFEST_DIR")).join("../../target/staticlib")
}
