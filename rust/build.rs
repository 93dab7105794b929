//! Finds libbedside.a and has it linked: the file that BEDSIDE_ARCHIVE names, else the one that is installed
//! where pkg-config says, else the one that `rt lib --cpu=x86-64` wrote in
//! crates/bedside of this repository.

use std::env;
use std::path::{Path, PathBuf};
use std::process::{exit, Command};

const ARCHIVE: &str = "libbedside.a";

fn main() {
    println!("cargo:rerun-if-changed=build.rs");
    for variable in ["BEDSIDE_ARCHIVE", "PKG_CONFIG", "PKG_CONFIG_PATH", "PKG_CONFIG_LIBDIR"] {
        println!("cargo:rerun-if-env-changed={variable}");
    }
    match archive() {
        Ok(path) => link(&path),
        Err(why) => {
            eprintln!("bedside: {why}");
            exit(1);
        }
    }
}

fn archive() -> Result<PathBuf, String> {
    let package = PathBuf::from(env::var_os("CARGO_MANIFEST_DIR").expect("cargo sets CARGO_MANIFEST_DIR"));
    if let Some(name) = env::var_os("BEDSIDE_ARCHIVE").filter(|name| !name.is_empty()) {
        let path = package.join(name);
        return if path.is_file() {
            Ok(path)
        } else {
            Err(format!("BEDSIDE_ARCHIVE names {}, and there is no such file", path.display()))
        };
    }
    if let Some(path) = installed() {
        return Ok(path);
    }
    let built = package.join("../crates/bedside/out").join(ARCHIVE);
    if built.is_file() {
        return Ok(built);
    }
    Err(format!(
        "{ARCHIVE} is not found. BEDSIDE_ARCHIVE is not set, pkg-config knows no installed bedside, and {} is \
         no file. `rt lib --cpu=x86-64`, run in crates/bedside of the repository, writes it.",
        built.display()
    ))
}

/// The archive in the library directory of pkg-config's package bedside, if there is one.
fn installed() -> Option<PathBuf> {
    let program = env::var_os("PKG_CONFIG").unwrap_or_else(|| "pkg-config".into());
    let answer = Command::new(program).args(["--variable=libdir", "bedside"]).output().ok()?;
    let directory = String::from_utf8(answer.stdout).ok()?;
    let path = Path::new(directory.trim()).join(ARCHIVE);
    (answer.status.success() && path.is_file()).then_some(path)
}

fn link(path: &Path) {
    let path = path.canonicalize().expect("the archive has just been seen");
    let directory = path.parent().expect("a file is in a directory");
    let name = path.file_name().and_then(|name| name.to_str()).expect("the archive's name is text");
    println!("cargo:rerun-if-changed={}", path.display());
    println!("cargo:rustc-link-search=native={}", directory.display());
    println!("cargo:rustc-link-lib=static:+verbatim={name}");
}
