//! The pairing: each routine of the port beside the published assoc.rs, with counts and every lent cell.

use oracle::call::{self, Answer, CELL, Call, LIST, WORK};
use crate::case::Case;
use oracle::digest::bits;
use oracle::inputs;
use oracle::overlap::overlap;
use crate::lent::Lent;
use crate::port::{self, OfCorners};
use oracle::random::Random;
use crate::report::{Found, Report, caught};

/// What stands beside lent floats, lists and doubles.
const BESIDE: (f32, usize, f64) = (3.5, 5, 2.5);

// ---- the port

struct Slices {
    inputs: Vec<Lent<f32>>,
    labels: [Lent<u8>; 2],
    out: Lent<f32>,
    lists: Vec<Lent<usize>>,
    work64: Lent<f64>,
    work32: Lent<f32>,
}

impl Slices {
    fn new(call: &Call) -> Slices {
        Slices {
            inputs: call.inputs.iter().map(|s| Lent::new(s, BESIDE.0)).collect(),
            labels: call.labels.each_ref().map(|s| Lent::new(s, 9)),
            out: Lent::filled(call.out, CELL, BESIDE.0),
            lists: call.lists.iter().map(|&length| Lent::filled(length, LIST, BESIDE.1)).collect(),
            work64: Lent::filled(call.work[0], WORK, BESIDE.2),
            work32: Lent::filled(call.work[1], WORK as f32, BESIDE.0),
        }
    }

    fn back(self, call: &Call, words: Vec<u64>) -> Answer {
        let given = self.inputs.into_iter().map(|s| s.back()).zip(&call.inputs);
        let kept = |(s, input): (Vec<f32>, &Vec<f32>)| s.iter().zip(input).all(|(a, b)| a.to_bits() == b.to_bits());
        assert!(given.into_iter().all(kept), "an input was written");
        assert!(self.labels.map(|s| s.back()) == call.labels, "a label was written");
        Answer {
            words,
            out: self.out.back(),
            lists: self.lists.into_iter().map(|s| s.back()).collect(),
            work64: self.work64.back(),
            work32: self.work32.back(),
        }
    }
}

// SAFETY, of each call below: each pointer comes with its slice's length, and no two of the slices overlap.
fn of_corners(routine: OfCorners, call: &Call, s: &mut Slices) -> Vec<u64> {
    let [d, t] = s.inputs.first_chunk_mut().expect("two inputs");
    let (d, dn, t, tn) = (d.start(), d.len(), t.start(), t.len());
    let out = &mut s.out;
    vec![unsafe { routine(call.boxes, call.tracks, d, dn, t, tn, out.start(), out.len()) } as u64]
}

fn soft(call: &Call, s: &mut Slices) -> Vec<u64> {
    let [d, t, c] = s.inputs.first_chunk_mut().expect("three inputs").each_mut().map(|i| (i.start(), i.len()));
    let (boxes, tracks, out) = (call.boxes, call.tracks, (s.out.start(), s.out.len()));
    let refusal =
        unsafe { port::bedside_soft_biou_batch(boxes, tracks, d.0, d.1, t.0, t.1, c.0, c.1, out.0, out.1) };
    vec![refusal as u64]
}

fn similarity(call: &Call, s: &mut Slices) -> Vec<u64> {
    let (d, out) = ((s.inputs[0].start(), s.inputs[0].len()), (s.out.start(), s.out.len()));
    let (boxes, tracks, temperature) = (call.boxes, call.tracks, call.floats[0]);
    vec![unsafe { port::bedside_mh_dist_similarity(boxes, tracks, d.0, d.1, temperature, out.0, out.1) } as u64]
}

fn matched(call: &Call, s: &mut Slices) -> Vec<u64> {
    let (cost, work) = ((s.inputs[0].start(), s.inputs[0].len()), (s.work64.start(), s.work64.len()));
    let [p, q] = s.lists.first_chunk_mut().expect("two lists").each_mut().map(|i| (i.start(), i.len()));
    let (b, t, threshold) = (call.boxes, call.tracks, call.floats[0]);
    let a = unsafe {
        port::bedside_match_detections(b, t, cost.0, cost.1, threshold, p.0, p.1, q.0, q.1, work.0, work.1)
    };
    [&[a.refusal as u64], &a.counts[..]].concat()
}

fn assigned(call: &Call, s: &mut Slices) -> Vec<u64> {
    let [iou, cost] = s.inputs.first_chunk_mut().expect("two inputs").each_mut().map(|i| (i.start(), i.len()));
    let [p, q, d, t] = s.lists.first_chunk_mut().expect("four lists").each_mut().map(|i| (i.start(), i.len()));
    let work = (s.work64.start(), s.work64.len());
    let a = unsafe {
        port::bedside_linear_assignment(
            call.boxes, call.tracks, iou.0, iou.1, cost.0, cost.1, call.floats[0], p.0, p.1, q.0, q.1, d.0, d.1, t.0,
            t.1, work.0, work.1,
        )
    };
    [&[a.refusal as u64], &a.counts[..]].concat()
}

fn associated(call: &Call, s: &mut Slices) -> Vec<u64> {
    let inputs = s.inputs.first_chunk_mut().expect("five inputs").each_mut().map(|i| (i.start(), i.len()));
    let [boxes, corners, distance, tc, dc] = inputs;
    let [dl, tl] = s.labels.each_mut().map(|i| (i.start(), i.len()));
    let [p, q, d, t] = s.lists.first_chunk_mut().expect("four lists").each_mut().map(|i| (i.start(), i.len()));
    let (work64, work32) = ((s.work64.start(), s.work64.len()), (s.work32.start(), s.work32.len()));
    let uses = [call.flags / 4 % 2 == 1, call.flags % 2 == 1, call.flags / 2 % 2 == 1];
    let a = unsafe {
        port::bedside_associate(
            port::Params { floats: call.floats, uses }, call.boxes, call.tracks, boxes.0, boxes.1, corners.0,
            corners.1, distance.0, distance.1, tc.0, tc.1, dc.0, dc.1, dl.0, dl.1, tl.0, tl.1, p.0, p.1, q.0, q.1, d.0,
            d.1, t.0, t.1, work64.0, work64.1, work32.0, work32.1,
        )
    };
    [&[a.refusal as u64], &a.counts[..]].concat()
}

fn of_port(call: &Call) -> Answer {
    let mut s = Slices::new(call);
    let words = match call.routine {
        0 => of_corners(port::bedside_iou_batch, call, &mut s),
        call::SOFT => soft(call, &mut s),
        2 => of_corners(port::bedside_shape_similarity_v1, call, &mut s),
        3 => of_corners(port::bedside_shape_similarity_v2, call, &mut s),
        call::SIMILARITY => similarity(call, &mut s),
        call::MATCH => matched(call, &mut s),
        call::ASSIGN => assigned(call, &mut s),
        _ => associated(call, &mut s),
    };
    s.back(call, words)
}

/// The areas of the first boxes and tracks of a call.
fn areas(call: &Call) -> Result<(), String> {
    let corners = |input: usize| call.inputs[input].as_chunks::<4>().0.iter().take(8);
    for (d, t) in corners(0).flat_map(|d| corners(1).map(move |t| (d, t))) {
        let port = unsafe { port::bedside_overlap(d.as_ptr(), t.as_ptr()) }.0;
        let rust = overlap(*d, *t);
        if port.map(bits) != rust.map(bits) {
            return Err(format!("the areas of {d:?} and {t:?} are {port:?}, and not {rust:?}"));
        }
    }
    Ok(())
}

fn agree(call: &Call) -> Found {
    if call.routine == 0 {
        areas(call)?;
    }
    let (port, rust) = (of_port(call), call.answer());
    let cells = |s: &[f32]| s.iter().map(|&x| bits(x)).collect::<Vec<_>>();
    let what = if port.words != rust.words {
        format!("answers {:?}, and not {:?}", port.words, rust.words)
    } else if cells(&port.out) != cells(&rust.out) {
        "the matrices differ".to_string()
    } else if port.lists != rust.lists {
        "the lists differ".to_string()
    } else if port.work64 != rust.work64 || port.work32 != rust.work32 {
        "the work slices differ".to_string()
    } else {
        return Ok(port.words[0]);
    };
    Err(format!("{} of {} boxes, {} tracks: {what}", call::ROUTINES[call.routine], call.boxes, call.tracks))
}

// ---- cases

fn case(call: &Call) -> Case {
    let numbers = [call.routine, call.boxes, call.tracks, call.flags, call.out, call.work[0], call.work[1]];
    let case = Case::new("assoc").numbers("numbers", &numbers).numbers("lists", &call.lists);
    let case = case.bytes("box_labels", &call.labels[0]).bytes("track_labels", &call.labels[1]);
    let inputs = call.inputs.iter().enumerate();
    inputs.fold(case.floats("floats", &call.floats), |case, (k, s)| case.floats(&format!("input{k}"), s))
}

pub fn check(case: &Case) -> Found {
    let numbers: [usize; 7] = case.get_numbers("numbers").try_into().expect("seven numbers");
    let [routine, boxes, tracks, flags, out, work64, work32] = numbers;
    let count = [3, 3, 3, 3, 1, 1, 2, 5][routine];
    let inputs = (0..count).map(|k| case.get_floats(&format!("input{k}"))).collect();
    let floats = case.get_floats("floats").try_into().expect("four floats");
    let (lists, labels) = (case.get_numbers("lists"), ["box_labels", "track_labels"].map(|name| case.get_bytes(name)));
    agree(&Call { routine, boxes, tracks, flags, floats, inputs, labels, out, lists, work: [work64, work32] })
}

// ---- random calls

/// Up to 7 mostly, one in eight up to 32, one in two thousand up to 255.
fn side(random: &Random) -> usize {
    match random.below(2000) {
        0 => random.index(256),
        1..250 => random.index(33),
        _ => random.index(8),
    }
}

/// Boxes whose two directions mostly are of one kind, matrices of any.
fn inputs_of(routine: usize, boxes: usize, tracks: usize, random: &Random) -> Vec<Vec<f32>> {
    // The slice's number is joined to the seed of its random numbers: so is ours.
    let seed = random.word() << 8;
    let kind = random.index(inputs::BOX_KINDS);
    let upright = if random.one_in(4) { random.index(inputs::BOX_KINDS) } else { kind };
    let cells = |slice: u64, kind: usize, length: usize| inputs::cells(slice ^ seed, kind, boxes, tracks, length);
    let corners = |slice: u64, length: usize| {
        let [mut x, y] = [kind, upright].map(|kind| inputs::corners(slice ^ seed, kind, boxes, tracks, length));
        (1..length).step_by(2).for_each(|k| x[k] = y[k]);
        x
    };
    let confidence = if random.one_in(2) { inputs::CROWD } else { kind };
    let corners = [corners(inputs::DETECTIONS, 4 * boxes), corners(inputs::CORNERS, 4 * tracks)];
    let of_tracks = cells(inputs::TRACK_CONFIDENCE, confidence, tracks);
    let matrix = |slice: u64, kind: usize| cells(slice, kind, boxes * tracks);
    let any = random.index(inputs::KINDS.len());
    match routine {
        call::SIMILARITY => vec![matrix(inputs::DISTANCE, any)],
        call::MATCH => vec![matrix(inputs::COST, any)],
        call::ASSIGN => vec![matrix(inputs::IOU, any), matrix(inputs::COST, any)],
        call::ASSOCIATE => {
            let distance = matrix(inputs::DISTANCE, any);
            let of_boxes = cells(inputs::DETECTION_CONFIDENCE, confidence, boxes);
            [&corners[..], &[distance, of_tracks, of_boxes]].concat()
        }
        _ => [&corners[..], &[of_tracks]].concat(),
    }
}

fn floats_of(routine: usize, random: &Random) -> [f32; 4] {
    let usual = if routine == call::SIMILARITY { 1.0 } else { 0.3 };
    let below = random.pick(&[-1.0, f32::NEG_INFINITY, f32::NAN]);
    let first = random.pick(&[usual, usual, 0.0, 0.5, random.unit(), random.any(), below]);
    let weights = [0.5, 0.25, 0.25];
    let other = [random.unit(), random.any(), inputs::listed(random.word())];
    let [a, b, c] = random.pick(&[weights, weights, other]);
    [first, a, b, c]
}

/// One label everywhere in half of the calls; in the rest any, or one of two.
fn labels_of(routine: usize, sides: [usize; 2], random: &Random) -> [Vec<u8>; 2] {
    let (most, first) = (random.pick(&[1, 1, 2, 3]), random.below(3));
    let label = |_| 1 + ((first + random.below(most)) % 3) as u8;
    sides.map(|side| if routine == call::ASSOCIATE { (0..side).map(label).collect() } else { vec![] })
}

fn made(random: &Random) -> Call {
    let (routine, boxes, tracks) = (random.index(8), side(random), side(random));
    let (few, cells) = (boxes.min(tracks), call::square(boxes, tracks));
    let more = |length: usize| length + random.index(3);
    let lists = [more(few), more(few), more(boxes), more(tracks)];
    let lists = lists[..[0, 0, 0, 0, 0, 2, 4, 4][routine]].to_vec();
    let out = if routine < call::MATCH { more(boxes * tracks) } else { 0 };
    let work = [more(cells), more(4 * cells)];
    let work = [if routine < call::MATCH { 0 } else { work[0] }, if routine < call::ASSOCIATE { 0 } else { work[1] }];
    let (flags, floats) = (random.index(8), floats_of(routine, random));
    let inputs = inputs_of(routine, boxes, tracks, random);
    let labels = labels_of(routine, [boxes, tracks], random);
    Call { routine, boxes, tracks, flags, floats, inputs, labels, out, lists, work }
}

/// A label that is none, or one more or less.
fn spoil_labels(labels: &mut Vec<u8>, random: &Random) {
    match random.below(3) {
        0 => drop(labels.pop()),
        1 => labels.push(1),
        _ if labels.is_empty() => {}
        _ => {
            let k = random.index(labels.len());
            labels[k] = random.pick(&[0, 4, 255]);
        }
    }
}

/// A side, a length or a label off; of an input that is not looked at, nothing follows.
fn spoil(call: &mut Call, random: &Random) {
    let off = |length: &mut usize, random: &Random| *length = random.pick(&[length.saturating_sub(1), 0]);
    match random.below(9) {
        0 => call.boxes = random.pick(&[256, 300, call.boxes + 1, 1 << 62, usize::MAX]),
        1 => call.tracks = random.pick(&[256, 300, call.tracks + 1, 1 << 62, usize::MAX]),
        2 => off(&mut call.out, random),
        3 => off(&mut call.work[random.index(2)], random),
        4 if !call.lists.is_empty() => {
            let k = random.index(call.lists.len());
            off(&mut call.lists[k], random);
        }
        5 | 6 if call.routine == call::ASSOCIATE => spoil_labels(&mut call.labels[random.index(2)], random),
        _ => {
            let k = random.index(call.inputs.len());
            let length = call.inputs[k].len();
            let other = random.pick(&[length + 1, length.saturating_sub(1), length + 4, 0]);
            call.inputs[k].resize(other, 0.5);
        }
    }
}

pub fn run(random: &Random, report: &mut Report) {
    let mut call = made(random);
    for _ in 0..random.pick(&[0, 0, 0, 0, 0, 0, 1, 2]) {
        spoil(&mut call, random);
    }
    report.judge(caught(|| agree(&call)), || case(&call));
}
