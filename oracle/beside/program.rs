//! A program of the port that reads standard input.

use std::io::Write;
use std::process::{Command, Stdio};

pub struct Ran {
    pub out: Vec<u8>,
    pub errors: String,
    /// By itself.
    pub ended: bool,
}

/// What the program writes for bytes that come in pieces.
pub fn ran(program: &str, bytes: &[u8], piece: usize) -> Ran {
    let mut command = Command::new(program);
    let command = command.stdin(Stdio::piped()).stdout(Stdio::piped()).stderr(Stdio::piped());
    let mut child = command.spawn().expect("a program of the port");
    let mut input = child.stdin.take().expect("its standard input");
    let written = std::thread::scope(|scope| {
        // A program that stops early closes the pipe: what is left need not be read.
        scope.spawn(move || bytes.chunks(piece).try_for_each(|part| input.write_all(part)));
        child.wait_with_output().expect("its standard output")
    });
    let errors = String::from_utf8_lossy(&written.stderr).into_owned();
    Ran { out: written.stdout, errors, ended: written.status.code().is_some() }
}

/// What it prints, and whether it ended by itself.
pub fn printed(program: &str, bytes: &[u8], piece: usize) -> (String, bool) {
    let ran = ran(program, bytes, piece);
    (String::from_utf8_lossy(&ran.out).into_owned(), ran.ended)
}
