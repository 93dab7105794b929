//! A drop: the port's bedside_forget_set and bedside_forget beside the published tracker's list without the same tracks, the
//! whole table and every lent cell; and histories of frames and drops.

use crate::case::Case;
use crate::frames::{exactly, frame, labelling};
use crate::lent::Lent;
use crate::port::{self, Forgotten};
use crate::report::{Found, Report, caught};
use oracle::boxes::Boxes;
use oracle::frame::{Table, needed};
use oracle::input::Input;
use oracle::random::Random;
use oracle::scenes;
use oracle::tables;
use oracle::verdict::State;

/// What a drop is given and lent; by bedside_forget where it says so.
struct Given {
    input: Input,
    ids: Vec<u64>,
    single: bool,
}

/// Of the table: settings, boxes and lengths are a frame's.
fn case(given: &Given) -> Case {
    let Input { state: State { count, last, frames }, floats, counters, labels, .. } = &given.input;
    let case = Case::new("drops").words("settings", &given.input.settings.words());
    let case = case.words("state", &[*count, *last, *frames]).floats("floats", floats).words("counters", counters);
    case.bytes("labels", labels).words("ids", &given.ids).words("single", &[given.single as u64])
}

fn read(case: &Case) -> Given {
    let frame = Case::read(&case.text()).floats("boxes", &[]).bytes("box_labels", &[]).numbers("lengths", &[0; 3]);
    let input = crate::frames::read(&frame);
    Given { input, ids: case.get("ids").to_vec(), single: case.get("single") == [1] }
}

// ---- the port

struct Back {
    floats: Vec<f32>,
    counters: Vec<u64>,
    labels: Vec<u8>,
}

fn of_port(given: &Given) -> (Forgotten, Back) {
    let Input { state, floats, counters, labels, .. } = &given.input;
    let (mut floats, mut counters) = (Lent::new(floats, 3.5), Lent::new(counters, 5));
    let (mut labels, mut ids) = (Lent::new(labels, 9), Lent::new(&given.ids, 5));
    let (f, fn_, c, cn) = (floats.start(), floats.len(), counters.start(), counters.len());
    let (l, ln) = (labels.start(), labels.len());
    // SAFETY: each pointer comes with its slice's length, and no two of the slices overlap.
    let forgotten = unsafe {
        if given.single {
            port::bedside_forget(*state, f, fn_, c, cn, l, ln, given.ids[0])
        } else {
            port::bedside_forget_set(*state, f, fn_, c, cn, l, ln, ids.start(), ids.len())
        }
    };
    assert!(ids.back() == given.ids, "an id was written");
    (forgotten, Back { floats: floats.back(), counters: counters.back(), labels: labels.back() })
}

// ---- comparisons

/// To the bit, but for NaNs, which count as one.
fn same_floats(a: &[f32], b: &[f32]) -> bool {
    a.len() == b.len() && a.iter().zip(b).all(|(x, y)| x.to_bits() == y.to_bits() || x.is_nan() && y.is_nan())
}

/// Of a call that changes nothing, and past the places, every bit is as it was.
fn same_table(table: &Table, given: &Given, refusal: u32, back: &Back) -> bool {
    let changed = if refusal == 0 && !given.ids.is_empty() { 24 * table.places() } else { 0 };
    same_floats(&table.floats[..changed], &back.floats[..changed])
        && exactly(&table.floats[changed..], &back.floats[changed..])
        && table.counters == back.counters
        && table.labels == back.labels
}

/// Both on one drop, from which the Rust's table goes on. The number that both answered.
fn agree(table: &mut Table, given: &Given) -> Found {
    let (port, back) = of_port(given);
    let refusal = table.forget(&given.ids);
    let state = |s: &State| [s.count, s.last, s.frames];
    let said = |what: &str| format!("{} tracks, {} ids: {what}", given.input.state.count, given.ids.len());
    if refusal != port.refusal || state(&table.state) != state(&port.state) {
        return Err(said(&format!("the answers differ, {refusal} and {}", port.refusal)));
    }
    if !same_table(table, given, refusal, &back) {
        return Err(said("the tables differ"));
    }
    Ok(refusal as u64)
}

pub fn check(case: &Case) -> Found {
    let given = read(case);
    agree(&mut given.input.table(), &given)
}

fn judge(table: &mut Table, given: &Given, report: &mut Report) -> bool {
    let found = caught(|| agree(table, given));
    let same = found.is_ok();
    report.judge(found, || case(given));
    same
}

// ---- lists of ids

fn shuffled(mut ids: Vec<u64>, random: &Random) -> Vec<u64> {
    (1..ids.len()).for_each(|k| ids.swap(k, random.index(k + 1)));
    ids
}

/// An id that is not held, mostly: none, the next one, one that stands beyond the count, one that was given before, one
/// that has the lower half of a held one, any.
fn other(table: &Table, random: &Random) -> u64 {
    let held = table.ids();
    let beyond = table.counters.get(4 * held.len()).copied().unwrap_or(0);
    let alike = held.first().map_or(1 << 32, |id| id + (1 << 32));
    random.pick(&[0, table.state.last + 1, beyond, 1 + random.below(table.state.last + 1), alike, random.word()])
}

/// Some of the held ids, all or none, in any order; with ids that are not held, or that stand twice; or many small numbers.
fn list(table: &Table, random: &Random) -> Vec<u64> {
    let held = table.ids();
    let share = 1 + random.below(4);
    let some: Vec<u64> = held.iter().copied().filter(|_| random.below(4) < share).collect();
    let mut ids = match random.below(8) {
        0 => vec![],
        1 => held,
        2 => (0..random.below(40)).map(|_| random.below(60)).collect(),
        3 => some.into_iter().take(1).collect(),
        _ => some,
    };
    if random.one_in(4) {
        ids.push(other(table, random));
    }
    if random.one_in(6) && !ids.is_empty() {
        ids.push(random.pick(&ids));
    }
    shuffled(ids, random)
}

/// A drop over a table, once in six also over the table spoiled; whether the two can go on.
fn forget(table: &mut Table, random: &Random, report: &mut Report) -> bool {
    let ids = list(table, random);
    let single = ids.len() == 1 && random.one_in(2);
    let given = Given { input: Input::new(table, &Boxes::default(), [0; 3]), ids, single };
    if random.one_in(6) {
        let mut spoiled = Given { input: given.input.clone(), ids: given.ids.clone(), single };
        (0..1 + random.below(3)).for_each(|_| tables::spoil(&mut spoiled.input, random));
        judge(&mut spoiled.input.table(), &spoiled, report);
    }
    judge(table, &given, report)
}

// ---- histories

/// Frames from an arbitrary sound table, with drops between them.
fn from_table(random: &Random, report: &mut Report) {
    let manner = tables::Manner::new(random);
    let mut table = manner.table(random);
    for _ in 0..1 + random.below(8) {
        let goes_on = if random.one_in(2) {
            forget(&mut table, random, report)
        } else {
            let boxes = manner.boxes(&table, random);
            let lengths = needed(table.state.count as usize, boxes.count()).map(|length| length + random.index(3));
            frame(&mut table, &boxes, lengths, report)
        };
        if !goes_on {
            return;
        }
    }
}

/// A scene of the fixed list with other numbers, and drops in a third of the gaps between its frames.
fn scene(random: &Random, report: &mut Report) {
    let mut scene = scenes::seeded(random.index(72), random.word());
    scene.labelling = labelling(random);
    let mut table = scene.start();
    for f in 0..scene.frames {
        let boxes = scene.boxes(f);
        let lengths = scene.lengths(f, table.state.count as usize, boxes.count());
        let same = frame(&mut table, &boxes, lengths, report);
        if !same || random.one_in(3) && !forget(&mut table, random, report) {
            return;
        }
    }
}

pub fn run(random: &Random, report: &mut Report) {
    match random.below(8) {
        0 => scene(random, report),
        _ => (0..20).for_each(|_| from_table(random, report)),
    }
}
