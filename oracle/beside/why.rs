//! Why a box has no track: the port's bedside_why, asked about boxes of a frame, beside what the published tracker did with
//! them. Every lent cell, too: the table and the output stay, and the work slices are zero, or as they were.

use crate::case::Case;
use crate::frames::{self, exactly};
use crate::lent::Lent;
use crate::port::{self, Explanation};
use crate::report::{Found, Report, caught};
use oracle::boxes::Boxes;
use oracle::digest::bits;
use oracle::frame::{Answer, Table};
use oracle::input::Input;
use oracle::lines::{BYTE, WORK};
use oracle::random::Random;
use oracle::why::told;
use std::panic::{AssertUnwindSafe, catch_unwind};

// ---- the port

/// What it answers of box `index`, and the work slices that it left.
fn of_port(input: &Input, index: usize) -> (Explanation, Vec<f64>, Vec<f32>) {
    let mut floats = Lent::new(&input.floats, 3.5);
    let mut counters = Lent::new(&input.counters, 5);
    let mut labels = Lent::new(&input.labels, 9);
    let mut boxes = Lent::new(&input.boxes.values, 3.5);
    let mut box_labels = Lent::new(&input.boxes.labels, 9);
    let mut out = Lent::filled(input.lengths[0], BYTE, 9);
    let mut work64 = Lent::filled(input.lengths[1], WORK as f64, 2.5);
    let mut work32 = Lent::filled(input.lengths[2], WORK, 3.5);
    // SAFETY: each pointer comes with its slice's length, and no two of the slices overlap.
    let explanation = unsafe {
        port::bedside_why(
            frames::settings(&input.settings), input.state, floats.start(), floats.len(), counters.start(),
            counters.len(), labels.start(), labels.len(), boxes.start(), boxes.len(), box_labels.start(),
            box_labels.len(), out.start(), out.len(), work64.start(), work64.len(), work32.start(), work32.len(), index,
        )
    };
    assert!(exactly(&floats.back(), &input.floats), "a float of the table was written");
    assert!(counters.back() == input.counters, "a counter was written");
    assert!(labels.back() == input.labels, "a label was written");
    assert!(exactly(&boxes.back(), &input.boxes.values), "a box was written");
    assert!(box_labels.back() == input.boxes.labels, "a box's label was written");
    assert!(out.back().iter().all(|&k| k == BYTE), "the output was written");
    (explanation, work64.back(), work32.back())
}

// ---- comparisons

/// All fields, the floats by their bits as they are compared.
fn words(e: &Explanation) -> [u64; 11] {
    let [score, dlo, duo, iou, intersection, union] =
        [e.scores[0], e.scores[1], e.scores[2], e.overlap[0], e.overlap[1], e.overlap[2]].map(|x| bits(x) as u64);
    [e.refusal as u64, e.index, e.fate as u64, e.id, score, dlo, duo, e.paired_id, iou, intersection, union]
}

/// What is asked for: of a refused call the frame's refusal, then 81; else what the Rust did with the box.
fn wanted(answer: &Answer, boxes: usize, index: usize) -> [u64; 11] {
    if answer.refusal != 0 {
        return [answer.refusal as u64, answer.index as u64, 0, 0, 0, 0, 0, 0, 0, 0, 0];
    }
    if index >= boxes {
        return [81, 0, 0, 0, 0, 0, 0, 0, 0, 0, 0];
    }
    let told = told(&answer.stages, index);
    let float = |x: f32| bits(x) as u64;
    let ([score, dlo, duo], [iou, intersection, union]) = (told.scores.map(float), told.overlap.map(float));
    [0, 0, told.fate as u64, told.id, score, dlo, duo, told.paired_id, iou, intersection, union]
}

fn agree_on(answer: &Answer, input: &Input, index: usize) -> Result<(), String> {
    let (port, work64, work32) = of_port(input, index);
    let rust = wanted(answer, input.boxes.count(), index);
    if words(&port) != rust {
        return Err(format!("box {index}: {:x?}, and not {rust:x?}", words(&port)));
    }
    let work = if rust[0] == 0 { 0.0 } else { WORK };
    if work64.iter().any(|&x| x != work as f64) || work32.iter().any(|&x| x != work) {
        return Err(format!("box {index}: the work slices differ"));
    }
    Ok(())
}

/// The boxes that are asked about: all of them, and two indices behind the last.
fn asked(boxes: usize) -> impl Iterator<Item = usize> {
    (0..=boxes).chain([usize::MAX])
}

/// The number that both answered of the frame, from which the Rust's table goes on.
fn agree(table: &mut Table, input: &Input) -> Found {
    let answer = catch_unwind(AssertUnwindSafe(|| table.update(&input.boxes, input.lengths)));
    let Ok(answer) = answer else { return Err("the Rust panics".to_string()) };
    let boxes = input.boxes.count();
    let said = |what: String| format!("{} tracks, {boxes} boxes: {what}", input.state.count);
    asked(boxes).try_for_each(|index| agree_on(&answer, input, index)).map_err(said)?;
    Ok(answer.refusal as u64)
}

pub fn check(case: &Case) -> Found {
    let input = frames::read(case);
    let found = agree(&mut input.table(), &input);
    if found.is_err() && !frames::finite(&input) { Ok(0) } else { found }
}

/// A frame; whether the Rust can go on.
fn frame(table: &mut Table, boxes: &Boxes, lengths: [usize; 3], report: &mut Report) -> bool {
    let input = Input::new(table, boxes, lengths);
    let found = caught(|| agree(table, &input));
    let same = found.is_ok();
    if !same && !frames::finite(&input) {
        report.not_finite += 1;
    } else {
        report.judge(found, || frames::case("why", &input));
    }
    same
}

pub fn run(random: &Random, report: &mut Report) {
    frames::draw(random, frame, report);
}
