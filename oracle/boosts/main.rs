//! The boosts and the pairing in frames of the scenes, for crates/boosts_vectors:
//!
//!     stdin      the records that it reads
//!     vectors    what it has to print, by the published tracker

use oracle::boosts::Boosts;
use oracle::boxes::Boxes;
use oracle::frame::{Answer, Table};
use oracle::records::Records;
use oracle::scenes::{self, KINDS, LABELLED, SCENES};
use std::io::Write;

/// What goes into the input, and what has to be printed.
#[derive(Default)]
struct Lists {
    records: Records,
    text: String,
}

impl Lists {
    /// A frame over a table that held tracks with these labels.
    fn frame(&mut self, name: String, table: &Table, held: &[u8], boxes: &Boxes, answer: &Answer) {
        let boosts = Boosts { name, settings: &table.settings, answer, labels: [&boxes.labels, held] };
        boosts.record(&mut self.records);
        self.text += &(boosts.line() + "\n");
    }
}

/// Of the frames with a track and a box the first, a third of those in which a boost changes a score, and every twelfth;
/// of large scenes every tenth.
fn shown(s: usize, f: usize, first: bool, answer: &Answer) -> bool {
    let stages = &answer.stages;
    let some = answer.refusal == 0 && !stages.tracks.is_empty() && !stages.corners.is_empty();
    let changes = || stages.scores[0] != stages.scores[2];
    some && (first || if !(72..LABELLED).contains(&s) { changes() && f % 3 == 1 || f % 12 == 0 } else { f % 10 == 1 })
}

fn play(lists: &mut Lists, s: usize) {
    let mut scene = scenes::scene(s);
    let mut table = scene.start();
    let mut first = true;
    for f in 0..scene.frames {
        let boxes = scene.boxes(f);
        let held = table.labels[..table.state.count as usize].to_vec();
        let lengths = scene.lengths(f, held.len(), boxes.count());
        let answer = table.update(&boxes, lengths);
        if shown(s, f, first, &answer) {
            first = false;
            lists.frame(format!("scene {s} {} {f}", KINDS[scene.kind]), &table, &held, &boxes, &answer);
        }
    }
}

fn main() {
    let mut lists = Lists::default();
    (0..SCENES).for_each(|s| play(&mut lists, s));
    let out = match std::env::args().nth(1).as_deref() {
        Some("stdin") => lists.records.0,
        Some("vectors") => lists.text.into_bytes(),
        _ => panic!("stdin or vectors"),
    };
    std::io::stdout().write_all(&out).expect("what is printed");
}
