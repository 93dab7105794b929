//! Links the port's library: the file that BEDSIDE_ARCHIVE names, or crates/bedside/out/libbedside.a of this repository.

use std::path::PathBuf;

fn main() {
    println!("cargo::rerun-if-env-changed=BEDSIDE_ARCHIVE");
    let built = concat!(env!("CARGO_MANIFEST_DIR"), "/../../crates/bedside/out/libbedside.a");
    let archive = PathBuf::from(std::env::var("BEDSIDE_ARCHIVE").unwrap_or(built.to_string()));
    if !archive.is_file() {
        eprintln!("oracle: no file {}: `rt lib --cpu=x86-64` in crates/bedside builds it", archive.display());
        std::process::exit(1);
    }
    println!("cargo::rerun-if-changed={}", archive.display());
    println!("cargo::rustc-link-search=native={}", archive.parent().expect("a folder").display());
}
