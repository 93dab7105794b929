//! The records of crates/strack_vectors, and what the published kalman_filter.rs, strack.rs and rect.rs make of them:
//!
//!     stdin      the records that it reads
//!     vectors    what it has to print
//!
//! The 8 by 8 covariance is looked at whole after every step: what lies outside the four pairs has to be zero.

include!(concat!(env!("OUT_DIR"), "/modules.rs"));

use boost_tracker::strack::{KalmanBoxTracker, convert_bbox_to_z, convert_z_to_bbox};
use oracle::digest::{Digest, bits, next};
use oracle::records::Records;
use rect::Rect;
use std::io::Write;

const EDGES: [u64; 17] = [
    0, 1, 2, 6, 7, 100, 0x7fff_ffff, 0x8000_0000, 0x8000_0001, 0xffff_ffff, 0x1_0000_0000, 0x1_0000_0001,
    0x7fff_ffff_ffff_ffff, 0x8000_0000_0000_0000, 0x8000_0000_0000_0001, 0xffff_ffff_ffff_fffe,
    0xffff_ffff_ffff_ffff,
];

const FLOATS: [f32; 11] = [
    0.0, -0.0, 1.0, -1.0, 10.5, -65536.0, 1e-40, 3e38, f32::INFINITY, f32::NEG_INFINITY, f32::NAN,
];

/// Kinds of records.
const START: u64 = 0;
const STEP: u64 = 1;
const WHOLE: u64 = 2;
const EDGE: u64 = 3;
const BOXES: u64 = 4;

/// What goes into the input, and what has to be printed.
#[derive(Default)]
struct Lists {
    records: Records,
    text: String,
}

impl Lists {
    fn record(&mut self, kind: u64, number: u64, first: [f32; 4], second: [f32; 4]) {
        self.records.words(&[kind, number]);
        self.records.floats(&first);
        self.records.floats(&second);
    }

    fn show(&mut self, floats: &[f32]) {
        floats.iter().for_each(|&x| self.text += &format!(" {:08x}", bits(x)));
    }

    fn counters(&mut self, t: &KalmanBoxTracker) {
        self.text += &format!(" {} {} {}", t.time_since_update(), t.hit_streak(), t.age);
    }

    fn end(&mut self) {
        self.text += "\n";
    }

    fn report(&mut self, t: &KalmanBoxTracker) {
        let counters = [t.time_since_update(), t.hit_streak(), t.age];
        let track = Digest::new().words([t.id() as u64].into_iter()).floats(&pairs(t)).numbers(&counters);
        self.show(&t.get_state());
        self.show(&[t.get_confidence(0.9)]);
        self.text += &format!(" {:016x}\n", track.0);
    }
}

/// A box of this kind out of 64 random bits, as two corners: one that drifts, that jumps, a tiny one, one of 65536, one
/// turned over, a flat one, one far off.
fn bbox(kind: u64, step: u64, random: u64) -> [f32; 4] {
    let a = (random % 65536) as f32;
    let b = (random / 65536 % 65536) as f32;
    let c = (random / 0x1_0000_0000 % 65536) as f32;
    let d = (random / 0x1_0000_0000_0000) as f32;
    let n = step as f32;
    let [left, top, width, height] = match kind {
        0 => [n * 3.0 + a / 65536.0, n * 2.0 + b / 65536.0, 32.0 + c / 65536.0, 64.0 + d / 65536.0],
        1 => [a / 32.0, b / 32.0, c / 128.0 + 4.0, d / 128.0 + 4.0],
        2 => [a / 32.0, b / 32.0, c / 16777216.0, d / 16777216.0],
        3 => [a, 0.0 - b, 65536.0 - c / 65536.0, 65536.0 - d / 65536.0],
        4 => [a / 32.0, b / 32.0, 0.0 - c / 128.0, d / 128.0],
        5 => [a / 32.0, b / 32.0, c / 128.0, 0.0],
        _ => [a - 65536.0, b - 65536.0, c / 4.0, d / 4.0 + 1.0],
    };
    [left, top, left + width, top + height]
}

/// Whether a track is corrected in this step, and how often.
fn corrections(pattern: u64, step: u64, random: u64) -> u64 {
    match pattern {
        0 => 1,
        1 => (random % 4 != 0) as u64,
        2 => (random % 4 == 0) as u64,
        3 => (step % 24 == 0) as u64,
        4 => 1 + (random % 8 == 0) as u64,
        _ => (step < 2) as u64,
    }
}

/// The pairs x, y, h, r in turn: p, v, A, B, C, D.
fn pairs(t: &KalmanBoxTracker) -> [f32; 24] {
    let (x, p) = (t.kf.state(), t.kf.covariance());
    let outside = |i: usize, j: usize| i % 4 != j % 4 && p[(i, j)] != 0.0;
    assert!(!(0..64).any(|k| outside(k / 8, k % 8)), "a covariance between two pairs is not zero");
    let of = |i: usize| [x[i], x[i + 4], p[(i, i)], p[(i, i + 4)], p[(i + 4, i)], p[(i + 4, i + 4)]];
    std::array::from_fn(|k| of(k / 6)[k % 6])
}

fn walk(lists: &mut Lists, number: u64, mut random: u64) -> u64 {
    let (kind, pattern) = (number % 7, number / 7 % 6);
    let first = bbox(kind, 0, random);
    let mut t = KalmanBoxTracker::new(&first, number as usize);
    lists.record(START, number, first, [0.0; 4]);
    lists.report(&t);
    for step in 0..64 {
        t.predict();
        random = next(random);
        let times = corrections(pattern, step, random);
        let mut boxes = [[0.0; 4]; 2];
        for bbox_of in &mut boxes[..times as usize] {
            random = next(random);
            *bbox_of = bbox(kind, step, random);
            t.update(bbox_of, 0.5);
        }
        lists.record(STEP, times, boxes[0], boxes[1]);
        lists.report(&t);
    }
    lists.record(WHOLE, 0, [0.0; 4], [0.0; 4]);
    lists.show(&pairs(&t));
    lists.end();
    random
}

fn walks(lists: &mut Lists) {
    let mut random = 0x1234_5678_9abc_def1;
    for number in 0..42 {
        random = walk(lists, number, random);
    }
}

/// The counters and the confidence at and around the ends of their ranges.
fn edge(lists: &mut Lists, since: u64, age: u64) {
    let mut t = KalmanBoxTracker::new(&[0.0, 0.0, 1.0, 1.0], 1);
    t.time_since_update = since as usize;
    t.hit_streak = age as usize;
    t.age = age as usize;
    lists.records.words(&[EDGE, 0]);
    lists.records.long(since);
    lists.records.long(age);
    lists.records.words(&[0; 4]);
    lists.show(&[0.9, 0.0, -1.5, 1.0].map(|coef| t.get_confidence(coef)));
    t.predict();
    lists.counters(&t);
    t.hit_streak = since as usize;
    t.update(&[0.0, 0.0, 1.0, 1.0], 0.5);
    lists.counters(&t);
    lists.end();
}

/// What each function of a box makes of a, with b for the other, and then the two conversions of a's numbers.
fn boxes(lists: &mut Lists, a: [f32; 4], b: [f32; 4]) {
    let r = Rect::new(a[0], a[1], a[2], a[3]);
    let s = Rect::new(b[0], b[1], b[2], b[3]);
    lists.record(BOXES, 0, a, b);
    lists.show(&[r.area(), r.calc_iou(&s)]);
    lists.show(r.get_xyah().as_slice());
    lists.show(&r.get_xyxy());
    for t in [Rect::from_xyxy(a[0], a[1], b[2], b[3]), Rect::from_xyhr(a[0], a[1], a[2], a[3])] {
        lists.show(&[t.x(), t.y(), t.width(), t.height()]);
    }
    lists.show(&convert_bbox_to_z(&a));
    lists.show(&convert_z_to_bbox(&a));
    lists.end();
}

/// Every pair of the listed floats in the places of a box, then random boxes near one another.
fn rects(lists: &mut Lists) {
    for i in 0..11 {
        for j in 0..11 {
            let e = |k: usize| FLOATS[k % 11];
            boxes(lists, [e(i), e(j), e(i + j), e(3 * i + j)], [e(j), e(i), e(i + 2 * j), e(j + 1)]);
        }
    }
    let mut random = 0x0dd_ba11;
    for _ in 0..128 {
        let first = random_box(random);
        random = next(random);
        boxes(lists, first, random_box(random));
        random = next(random);
    }
}

/// Left, top, width, height below 16.
fn random_box(random: u64) -> [f32; 4] {
    [0, 16, 32, 48].map(|shift| (random >> shift & 65535) as f32 / 4096.0)
}

fn main() {
    let mut lists = Lists::default();
    walks(&mut lists);
    EDGES.iter().for_each(|&since| EDGES.iter().for_each(|&age| edge(&mut lists, since, age)));
    rects(&mut lists);
    let out = match std::env::args().nth(1).as_deref() {
        Some("stdin") => lists.records.0,
        Some("vectors") => lists.text.into_bytes(),
        _ => panic!("stdin or vectors"),
    };
    std::io::stdout().write_all(&out).expect("what is printed");
}
