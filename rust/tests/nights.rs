//! The sample nights through a tracker, against the lines of the program trackbox: those that it prints, where
//! BEDSIDE_TRACKBOX names it, and a recorded digest of them.

use bedside::{Detection, Label, Settings, Tracker};
use std::fmt::Write;
use std::fs::{self, File};
use std::process::Command;

fn path(night: &str) -> String {
    format!("{}/../samples/{night}.boxes", env!("CARGO_MANIFEST_DIR"))
}

/// The frame and the box of a record of 25 bytes.
fn read(record: &[u8]) -> (u64, Detection) {
    let word = |k: usize| u32::from_le_bytes(record[4 * k..4 * k + 4].try_into().expect("four bytes"));
    let [left, top, width, height, score] = [1, 2, 3, 4, 5].map(|k| f32::from_bits(word(k)));
    let label = Label::of(record[24]).expect("a label");
    (u64::from(word(0)), Detection::new(left, top, width, height, score).labelled(label))
}

fn work(tracker: &mut Tracker, boxes: &mut Vec<Detection>, lines: &mut String) {
    for track in tracker.update(boxes).expect("no frame of a sample is turned down") {
        writeln!(lines, "{track}").expect("a string takes everything");
    }
    boxes.clear();
}

fn lines(night: &str) -> String {
    let mut tracker = Tracker::new(Settings::new(0.6, 0.3, 30, 3));
    let (mut boxes, mut lines) = (Vec::new(), String::new());
    for record in fs::read(path(night)).expect("a sample").chunks_exact(25) {
        let (frame, detection) = read(record);
        // the open frame, then those that no record has
        while tracker.frame_count() + 1 < frame {
            work(&mut tracker, &mut boxes, &mut lines);
        }
        boxes.push(detection);
    }
    work(&mut tracker, &mut boxes, &mut lines);
    lines
}

/// FNV-1a.
fn digest(text: &str) -> u64 {
    text.bytes().fold(0xcbf29ce484222325, |hash, byte| (hash ^ u64::from(byte)).wrapping_mul(0x100000001b3))
}

fn check(night: &str, count: usize, recorded: u64) {
    let lines = lines(night);
    if let Some(trackbox) = std::env::var_os("BEDSIDE_TRACKBOX").filter(|name| !name.is_empty()) {
        let input = File::open(path(night)).expect("a sample");
        let printed = Command::new(trackbox).stdin(input).output().expect("trackbox runs").stdout;
        assert!(printed == lines.as_bytes(), "trackbox prints other lines for {night}");
    }
    assert_eq!(lines.lines().count(), count);
    assert_eq!(digest(&lines), recorded, "{night}: {:016x}", digest(&lines));
}

#[test]
fn quiet() {
    assert!(lines("quiet").starts_with("2 1 43822000 43348800 42c65800 435b5000 3ef4e351\n"));
    check("quiet", 3654, 0x3819ca0015270711);
}

#[test]
fn visits() {
    check("visits", 4539, 0x7144bbadba1b73f9);
}

#[test]
fn crowded() {
    check("crowded", 5453, 0x6212fe08005274b9);
}
