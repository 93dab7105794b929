//! A frame: the port's bedside_update beside the published tracker, the whole table and every lent cell.

use crate::case::Case;
use oracle::boxes::Boxes;
use oracle::digest::bits;
use oracle::frame::{Answer, CAP, Record, Table, needed};
use crate::lent::Lent;
use crate::port::{self, Updated};
use oracle::random::Random;
use crate::report::{Found, Report, caught};
use oracle::input::Input;
use oracle::lines::{BYTE, WORK};
use oracle::scenes::{self, LABELLED, Labelling, Scene};
use oracle::tables;
use oracle::verdict::State;
use jamtrack_rs::boost_tracker::boost_tracker::inside::Settings;
use std::panic::{AssertUnwindSafe, catch_unwind};

/// The inputs of a frame, for one of the kinds that draw frames.
pub fn case(kind: &str, input: &Input) -> Case {
    let State { count, last, frames } = input.state;
    let case = Case::new(kind).words("settings", &input.settings.words()).words("state", &[count, last, frames]);
    let case = case.floats("floats", &input.floats).words("counters", &input.counters).bytes("labels", &input.labels);
    let case = case.floats("boxes", &input.boxes.values).bytes("box_labels", &input.boxes.labels);
    case.numbers("lengths", &input.lengths)
}

pub fn read(case: &Case) -> Input {
    let [count, last, frames] = case.get("state").try_into().expect("three words");
    Input {
        settings: Settings::of(case.get("settings")),
        state: State { count, last, frames },
        floats: case.get_floats("floats"),
        counters: case.get("counters").to_vec(),
        labels: case.get_bytes("labels"),
        boxes: Boxes { values: case.get_floats("boxes"), labels: case.get_bytes("box_labels") },
        lengths: case.get_numbers("lengths").try_into().expect("three lengths"),
    }
}

/// Asked of the build without optimisation.
pub fn finite(input: &Input) -> bool {
    let Input { state: State { count, last, frames }, floats, counters, labels, boxes, .. } = input;
    let words = [&input.settings.words()[..], &[*count, *last, *frames]];
    oracle_plain::input::finite(words, (floats, counters, labels), (&boxes.values, &boxes.labels))
}

// ---- the port

struct Back {
    floats: Vec<f32>,
    counters: Vec<u64>,
    labels: Vec<u8>,
    out: Vec<u8>,
    work64: Vec<f64>,
    work32: Vec<f32>,
}

pub fn settings(s: &Settings) -> port::Settings {
    let on = |bit: u64| s.flags & bit != 0;
    let [iou, mhd, shape] = s.lambdas;
    port::Settings {
        floats: [s.det_thresh, s.iou_threshold, iou, mhd, shape, s.dlo_boost_coef],
        max_age: s.max_age,
        min_hits: s.min_hits,
        uses: [on(1), on(2), on(4), !on(32), on(8), on(16), on(CAP)],
    }
}

fn of_port(input: &Input) -> (Updated, Back) {
    let mut floats = Lent::new(&input.floats, 3.5);
    let mut counters = Lent::new(&input.counters, 5);
    let mut labels = Lent::new(&input.labels, 9);
    let mut boxes = Lent::new(&input.boxes.values, 3.5);
    let mut box_labels = Lent::new(&input.boxes.labels, 9);
    let mut out = Lent::filled(input.lengths[0], BYTE, 9);
    let mut work64 = Lent::filled(input.lengths[1], WORK as f64, 2.5);
    let mut work32 = Lent::filled(input.lengths[2], WORK, 3.5);
    // SAFETY: each pointer comes with its slice's length, and no two of the slices overlap.
    let updated = unsafe {
        port::bedside_update(
            settings(&input.settings), input.state, floats.start(), floats.len(), counters.start(), counters.len(),
            labels.start(), labels.len(), boxes.start(), boxes.len(), box_labels.start(), box_labels.len(), out.start(),
            out.len(), work64.start(), work64.len(), work32.start(), work32.len(),
        )
    };
    assert!(exactly(&boxes.back(), &input.boxes.values), "a box was written");
    assert!(box_labels.back() == input.boxes.labels, "a box's label was written");
    let (floats, counters, labels) = (floats.back(), counters.back(), labels.back());
    (updated, Back { floats, counters, labels, out: out.back(), work64: work64.back(), work32: work32.back() })
}

// ---- comparisons

pub fn exactly(a: &[f32], b: &[f32]) -> bool {
    a.len() == b.len() && a.iter().zip(b).all(|(x, y)| x.to_bits() == y.to_bits())
}

fn alike(a: &[f32], b: &[f32]) -> bool {
    a.len() == b.len() && a.iter().zip(b).all(|(&x, &y)| bits(x) == bits(y))
}

fn same_record(record: &Record, bytes: &[u8]) -> bool {
    let word = |k: usize| u32::from_le_bytes(bytes[k..k + 4].try_into().unwrap());
    let id = u64::from_le_bytes(bytes[4..12].try_into().unwrap());
    let floats: [f32; 5] = std::array::from_fn(|k| f32::from_bits(word(12 + 4 * k)));
    word(0) == record.frame && id == record.id && alike(&floats, &record.floats) && bytes[32] == record.label
}

/// The records, then the bytes as they were.
fn same_out(answer: &Answer, out: &[u8]) -> bool {
    let (written, rest) = out.split_at(33 * answer.records.len());
    let records = answer.records.iter().zip(written.chunks(33));
    records.into_iter().all(|(record, bytes)| same_record(record, bytes)) && rest.iter().all(|&k| k == BYTE)
}

/// Of a refused call, and past the places, every bit is as it was.
fn same_table(table: &Table, answer: &Answer, back: &Back) -> bool {
    let held = if answer.refusal == 0 { 24 * table.places() } else { 0 };
    alike(&table.floats[..held], &back.floats[..held])
        && exactly(&table.floats[held..], &back.floats[held..])
        && table.counters == back.counters
        && table.labels == back.labels
}

fn same_answer(table: &Table, answer: &Answer, port: &Updated) -> bool {
    let state = |s: &State| [s.count, s.last, s.frames];
    (answer.refusal, answer.index as u64) == (port.refusal, port.index)
        && (answer.records.len() as u64, answer.turns, answer.scans) == (port.emitted, port.turns, port.scans)
        && state(&table.state) == state(&port.state)
}

fn difference(table: &Table, answer: &Answer, port: &Updated, back: &Back) -> Option<&'static str> {
    let work = if answer.refusal == 0 { 0.0 } else { WORK };
    if !same_answer(table, answer, port) {
        Some("the answers differ")
    } else if !same_table(table, answer, back) {
        Some("the tables differ")
    } else if !same_out(answer, &back.out) {
        Some("the records differ")
    } else if back.work64.iter().any(|&x| x != work as f64) || back.work32.iter().any(|&x| x != work) {
        Some("the work slices differ")
    } else {
        None
    }
}

/// Both on one frame, from which the Rust's table goes on. The number and the row turns that both answered.
fn agree(table: &mut Table, input: &Input) -> Result<(u64, u64), String> {
    let (port, back) = of_port(input);
    let answer = catch_unwind(AssertUnwindSafe(|| table.update(&input.boxes, input.lengths)));
    let Ok(answer) = answer else {
        return Err(format!("the Rust panics, the port says {}", port.refusal));
    };
    let boxes = input.boxes.count();
    let said = |what: &str| format!("{} tracks, {boxes} boxes: {what}", input.state.count);
    difference(table, &answer, &port, &back).map_or(Ok((answer.refusal as u64, answer.turns)), |what| Err(said(what)))
}

pub fn check(case: &Case) -> Found {
    let input = read(case);
    match agree(&mut input.table(), &input) {
        Err(what) if !finite(&input) => {
            println!("{what}; not every value is finite, so nothing is asked");
            Ok(0)
        }
        found => found.map(|(number, _)| number),
    }
}

// ---- scenes

/// A comparison of a frame, with which the table goes on; whether the two can.
type Compare = fn(&mut Table, &Boxes, [usize; 3], &mut Report) -> bool;

/// A frame of a scene; whether the two can go on.
pub fn frame(table: &mut Table, boxes: &Boxes, lengths: [usize; 3], report: &mut Report) -> bool {
    let input = Input::new(table, boxes, lengths);
    let found = caught(|| agree(table, &input));
    let same = found.is_ok();
    if !same && !finite(&input) {
        report.not_finite += 1;
    } else {
        report.turned += found.as_ref().is_ok_and(|answered| answered.1 > 0) as u64;
        report.judge(found.map(|answered| answered.0), || case("frames", &input));
    }
    same
}

fn play(scene: &mut Scene, table: &mut Table, compare: Compare, report: &mut Report) -> bool {
    (0..scene.frames).all(|f| {
        let boxes = scene.boxes(f);
        let lengths = scene.lengths(f, table.state.count as usize, boxes.count());
        compare(table, &boxes, lengths, report)
    })
}

/// A scene of the fixed list with other numbers, its own settings or others, in half with labels; rarely a large one.
fn scene(random: &Random, compare: Compare, report: &mut Report) {
    let small = random.pick(&[random.index(72), random.index(72), random.index(72), LABELLED + random.index(6)]);
    let s = if random.one_in(60) { 72 + random.index(8) } else { small };
    let mut scene = scenes::seeded(s, random.word());
    scene.labelling = labelling(random);
    if random.one_in(2) {
        scene.settings = tables::settings(random);
    }
    let mut table = scene.start();
    play(&mut scene, &mut table, compare, report);
}

/// One label everywhere in half of the scenes.
pub fn labelling(random: &Random) -> Labelling {
    random.pick(&[Labelling::Same, Labelling::Same, Labelling::Actors, Labelling::Turning])
}

/// Scenes of few actors one after the other over one table of 64 places, from empty.
fn night(random: &Random, compare: Compare, report: &mut Report) {
    let kinds = [0, 1, 2, 3, 10, 0, 1, 2, 3, 10, 4, 5, 11];
    let settings = tables::settings(random);
    let state = State { count: 0, last: 0, frames: 0 };
    let mut table = Table::new(settings, state, vec![7.0; 64 * 24 + 5], vec![7; 64 * 4 + 3], vec![7; 66]);
    for _ in 0..12 {
        let mut scene = scenes::seeded(12 * random.index(6) + random.pick(&kinds), random.word());
        scene.settings = settings;
        scene.labelling = labelling(random);
        scene.start();
        if !play(&mut scene, &mut table, compare, report) {
            return;
        }
    }
}

/// A few frames from an arbitrary sound table; and now and then a call that is spoiled.
fn from_table(random: &Random, compare: Compare, report: &mut Report) {
    let manner = tables::Manner::new(random);
    let mut table = manner.table(random);
    for _ in 0..1 + random.below(5) {
        let boxes = manner.boxes(&table, random);
        let lengths = needed(table.state.count as usize, boxes.count()).map(|length| length + random.index(3));
        if random.one_in(4) {
            let mut input = Input::new(&table, &boxes, lengths);
            (0..1 + random.below(3)).for_each(|_| tables::spoil(&mut input, random));
            compare(&mut input.table(), &input.boxes, input.lengths, report);
        }
        if !compare(&mut table, &boxes, lengths, report) {
            return;
        }
    }
}

fn at_limit(random: &Random, compare: Compare, report: &mut Report) {
    let (mut table, boxes) = tables::at_limit(random);
    compare(&mut table, &boxes, needed(1, 1), report);
}

/// Frames, each compared so.
pub fn draw(random: &Random, compare: Compare, report: &mut Report) {
    match random.below(16) {
        0 => night(random, compare, report),
        1..5 => scene(random, compare, report),
        5 => (0..20).for_each(|_| at_limit(random, compare, report)),
        _ => (0..20).for_each(|_| from_table(random, compare, report)),
    }
}

pub fn run(random: &Random, report: &mut Report) {
    draw(random, frame, report);
}
