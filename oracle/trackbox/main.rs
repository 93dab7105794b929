//! The programs trackbox and why by the published tracker and the scope document's rules, and the streams that the first
//! is run on.
//!
//!     stdin          reads box records, prints what trackbox has to print
//!     why FRAME BOX  reads box records, prints what why has to print for that frame and that box
//!     list           a line for each stream
//!     streams DIR    writes each stream to DIR/NAME.boxes and what has to be printed for it to DIR/NAME.lines

use oracle::digest::Digest;
use oracle::{rules, streams};
use std::io::Read;

/// The stream's bytes and their digest, the printed lines and their digest, and the last line.
fn list() {
    for s in streams::all() {
        let text = rules::printed(&s.bytes);
        let (of_bytes, of_text) = (Digest::new().bytes(&s.bytes).0, Digest::new().bytes(text.as_bytes()).0);
        let (lines, last) = (text.lines().count(), text.lines().last().unwrap_or(""));
        println!("{} {} {of_bytes:016x} | {lines} {of_text:016x} | {last}", s.name, s.bytes.len());
    }
}

fn write(folder: &str) {
    for s in streams::all() {
        std::fs::write(format!("{folder}/{}.boxes", s.name), &s.bytes).expect("a stream written");
        std::fs::write(format!("{folder}/{}.lines", s.name), rules::printed(&s.bytes)).expect("lines written");
    }
}

fn stdin() -> Vec<u8> {
    let mut bytes = Vec::new();
    std::io::stdin().read_to_end(&mut bytes).expect("box records");
    bytes
}

fn main() {
    let words: Vec<String> = std::env::args().skip(1).collect();
    match words.iter().map(|w| w.as_str()).collect::<Vec<_>>()[..] {
        ["stdin"] => print!("{}", rules::printed(&stdin())),
        ["why", frame, index] => {
            let (frame, index) = (frame.parse().expect("a frame"), index.parse().expect("a box"));
            print!("{}", rules::explained(&stdin(), frame, index));
        }
        ["list"] => list(),
        ["streams", folder] => write(folder),
        _ => panic!("stdin, why FRAME BOX, list or streams DIR"),
    }
}
