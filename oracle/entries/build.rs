//! Links the archive of the port's crate `entries`: the file that ENTRIES_ARCHIVE names.

use std::env;
use std::path::PathBuf;

fn main() {
    println!("cargo:rerun-if-env-changed=ENTRIES_ARCHIVE");
    let archive = env::var_os("ENTRIES_ARCHIVE").map(PathBuf::from).expect("ENTRIES_ARCHIVE names libentries.a: start ../test");
    println!("cargo:rerun-if-changed={}", archive.display());
    let folder = archive.parent().expect("a file stands in a folder");
    let stem = archive.file_stem().expect("a file has a name").to_string_lossy();
    println!("cargo:rustc-link-search=native={}", folder.display());
    println!("cargo:rustc-link-lib=static={}", stem.strip_prefix("lib").unwrap_or(&stem));
}
