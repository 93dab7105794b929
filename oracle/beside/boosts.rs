//! The boosts and the pairing of a frame: the port's functions, by the program of crates/boosts_vectors, which reads
//! records from a pipe, beside the published tracker, whose stages are noted down. Scores, retained boxes, distances and
//! pairs.

use crate::case::Case;
use crate::frames;
use crate::program::printed;
use crate::report::{Found, Report, caught};
use oracle::boosts::Boosts;
use oracle::boxes::Boxes;
use oracle::frame::{Table, needed};
use oracle::input::Input;
use oracle::random::Random;
use oracle::records::Records;
use oracle::scenes;
use oracle::tables::{self, Manner};

/// A frame that the published tracker worked: its input, and the record and the line of its boosts.
struct Worked {
    input: Input,
    record: Vec<u8>,
    line: String,
}

/// Works a frame; where it is refused there is nothing to compare.
fn worked(table: &mut Table, boxes: &Boxes, lengths: [usize; 3]) -> Option<Worked> {
    let input = Input::new(table, boxes, lengths);
    let answer = table.update(boxes, lengths);
    if answer.refusal != 0 {
        return None;
    }
    let name = format!("frame {}", input.state.frames);
    let labels = [&boxes.labels[..], &input.labels[..input.state.count as usize]];
    let boosts = Boosts { name, settings: &input.settings, answer: &answer, labels };
    let mut records = Records::default();
    boosts.record(&mut records);
    let line = boosts.line();
    Some(Worked { record: records.0, line, input })
}

// ---- comparisons

fn difference(port: Option<&str>, rust: &str) -> Found {
    match port {
        Some(line) if line == rust => Ok(0),
        line => Err(format!("{}, and not {rust}", line.unwrap_or("nothing"))),
    }
}

/// All frames by one run of the program.
fn judge(program: &str, all: &[Worked], report: &mut Report) {
    let bytes: Vec<u8> = all.iter().flat_map(|frame| frame.record.clone()).collect();
    let (text, ended) = printed(program, &bytes, 1 << 16);
    let mut lines = text.lines().filter(|_| ended);
    for frame in all {
        let found = difference(lines.next(), &frame.line);
        if found.is_err() && !frames::finite(&frame.input) {
            report.not_finite += 1;
        } else {
            report.judge(found, || frames::case("boosts", &frame.input));
        }
    }
}

pub fn check(case: &Case, program: &str) -> Found {
    let input = frames::read(case);
    let Some(frame) = worked(&mut input.table(), &input.boxes, input.lengths) else { return Ok(0) };
    let (text, _) = printed(program, &frame.record, 1 << 16);
    let found = difference(text.lines().next(), &frame.line);
    if found.is_err() && !frames::finite(&frame.input) { Ok(0) } else { found }
}

// ---- random frames

/// A few frames from an arbitrary sound table.
fn from_table(random: &Random, all: &mut Vec<Worked>) {
    let manner = Manner::new(random);
    let mut table = manner.table(random);
    for _ in 0..1 + random.below(5) {
        let boxes = manner.boxes(&table, random);
        let lengths = needed(table.state.count as usize, boxes.count());
        all.extend(worked(&mut table, &boxes, lengths));
    }
}

/// A scene of the fixed list with other numbers and any options.
fn scene(random: &Random, all: &mut Vec<Worked>) {
    let mut scene = scenes::seeded(random.index(72), random.word());
    scene.settings = tables::settings(random);
    scene.labelling = frames::labelling(random);
    let mut table = scene.start();
    for f in 0..scene.frames {
        let boxes = scene.boxes(f);
        let lengths = scene.lengths(f, table.state.count as usize, boxes.count());
        all.extend(worked(&mut table, &boxes, lengths));
    }
}

/// A panic of the Rust is a difference that frames finds.
pub fn run(random: &Random, program: &str, report: &mut Report) {
    let mut all = vec![];
    for _ in 0..20 {
        let mut some = vec![];
        let drawn = caught(|| {
            if random.one_in(8) { scene(random, &mut some) } else { from_table(random, &mut some) };
            Ok(())
        });
        if drawn.is_ok() {
            all.append(&mut some);
        }
    }
    judge(program, &all, report);
}
