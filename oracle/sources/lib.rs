//! What the build scripts of this workspace share: they put the published files, checked and changed by lists of
//! substitutions, into the folder that cargo builds in. No text of these files is kept.

use std::fs;
use std::path::{Path, PathBuf};
use std::process::{Command, Output, Stdio};

/// A file of this workspace.
fn here(file: &str) -> PathBuf {
    Path::new(env!("CARGO_MANIFEST_DIR")).parent().expect("the workspace").join(file)
}

/// A place in the folder that cargo builds in.
fn there(file: &str) -> PathBuf {
    let path = Path::new(&std::env::var("OUT_DIR").expect("cargo's folder")).join(file);
    fs::create_dir_all(path.parent().expect("a folder")).expect("a folder made");
    path
}

/// The build is done again where this file changes.
fn watch(file: &Path) {
    println!("cargo::rerun-if-changed={}", file.display());
}

/// What a script of this workspace prints. Where it fails it has said why, and the build ends.
fn said(mut script: Command) -> Vec<u8> {
    let Output { status, stdout, .. } = script.stderr(Stdio::inherit()).output().expect("a script of the oracle run");
    if !status.success() {
        std::process::exit(1);
    }
    stdout
}

/// A published file, if it is the one that this repository ports: oracle/source says where it is looked for.
pub fn published(file: &str) -> Vec<u8> {
    for name in ["JAMTRACK_SRC", "MUTANT_FILE", "MUTANT_LIST"] {
        println!("cargo::rerun-if-env-changed={name}");
    }
    let mut source = Command::new(here("source"));
    source.arg(file);
    let path = String::from_utf8(said(source)).expect("a path");
    let path = Path::new(path.trim_end());
    watch(path);
    fs::read(path).expect("a published file")
}

/// A file of this workspace; where oracle/mutants changes it, the changed copy.
fn ours(file: &str) -> Vec<u8> {
    watch(&here(file));
    let text = fs::read(here(file)).expect("a file of the oracle");
    if std::env::var("MUTANT_FILE").is_ok_and(|name| name == file) {
        return changed(&text, Path::new(&std::env::var("MUTANT_LIST").expect("the mutant's list")));
    }
    text
}

/// A text changed by a list: oracle/substitute says what a list is.
fn changed(text: &[u8], list: &Path) -> Vec<u8> {
    let before = there("before");
    fs::write(&before, text).expect("a text written");
    let mut substitute = Command::new(here("substitute"));
    substitute.arg(list).stdin(fs::File::open(before).expect("a text"));
    said(substitute)
}

/// A text changed by a list of this workspace.
pub fn substituted(text: &[u8], list: &str) -> Vec<u8> {
    put(&ours(list), list);
    changed(text, &there(list))
}

pub fn put(text: &[u8], to: &str) {
    fs::write(there(to), text).expect("a source written");
}

/// A published file in its place, changed by lists, one after the other.
pub fn take(file: &str, lists: &[&str]) {
    put(&lists.iter().fold(published(file), |text, list| substituted(&text, list)), file);
}

/// A published file in its place, as it is.
pub fn take_whole(file: &str) {
    take(file, &[]);
}

/// A file of this workspace.
pub fn copy(file: &str, to: &str) {
    put(&ours(file), to);
}
