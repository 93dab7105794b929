//! The port's bedside_update beside the published tracker, frame by frame, on the same nights.
//!
//!     driver                                times of all
//!     driver largest                        of each night its number and the frame with the most boxes times tracks
//!     driver once WHOSE NIGHT FRAME         the night up to that frame, for a tool that counts the instructions of its
//!                                           last frame; WHOSE is port or published, a night is 2 × its number, and one
//!                                           more with the settings of BoostTrack++
//!
//! The published files are here twice: with the scope document's float functions, and as they are, with libm's.

#[allow(dead_code)]
#[path = "../clock.rs"]
mod clock;
mod nights;
mod port;

use clock::median;
use nights::Night;
use port::Lent;
use std::hint::black_box;
use std::time::Instant;

/// The tracker of one build of the published files.
macro_rules! published {
    ($build:ident) => {
        mod $build {
            use crate::nights::Night;
            use ::$build::boost_tracker::boost_tracker::BoostTracker;
            use ::$build::object::Object;
            use ::$build::rect::Rect;

            pub struct Tracker(pub BoostTracker);

            /// The boxes of each frame, as the tracker takes them.
            pub fn objects(night: &Night) -> Vec<Vec<Object>> {
                let object = |b: &[f32]| Object::new(Rect::new(b[0], b[1], b[2], b[3]), b[4], None);
                night.frames.iter().map(|boxes| boxes.chunks_exact(5).map(object).collect()).collect()
            }

            impl Tracker {
                pub fn new(plus_plus: bool) -> Tracker {
                    let tracker = BoostTracker::new(0.6, 0.3, 30, 3);
                    Tracker(if plus_plus { tracker.with_boost_plus_plus() } else { tracker })
                }

                pub fn update(&mut self, objects: &[Object]) -> Vec<Object> {
                    self.0.update(objects).expect("the Rust's update gives no error")
                }
            }
        }
    };
}

published!(rules);
published!(libm);

/// A night with settings, and what is found out by working it once.
struct Case {
    night: Night,
    plus_plus: bool,
    boxes: usize,
    tracks: usize,
    /// The frame with the most boxes times tracks.
    largest: usize,
}

impl Case {
    fn new(night: Night, plus_plus: bool) -> Case {
        let mut tracker = rules::Tracker::new(plus_plus);
        let (mut tracks, mut largest, mut most) = (0, 0, 0);
        for (f, objects) in rules::objects(&night).iter().enumerate() {
            let cells = objects.len() * tracker.0.tracker_count();
            if cells > most {
                (largest, most) = (f, cells);
            }
            tracker.update(objects);
            tracks = tracks.max(tracker.0.tracker_count());
        }
        let boxes = night.frames.iter().map(|boxes| boxes.len() / 5).max().unwrap_or(0);
        Case { night, plus_plus, boxes, tracks, largest }
    }

    /// Work memory for as many as there are places, where they are trackbox's; otherwise for as many as come.
    fn port(&self, lent: Lent) -> port::Tracker {
        let side = if self.night.places == 64 { 64 } else { self.boxes.max(self.tracks) };
        port::Tracker::new(self.plus_plus, lent, self.night.places, side)
    }

    fn name(&self) -> String {
        format!("{}{}", self.night.name, if self.plus_plus { ", ++" } else { "" })
    }
}

fn cases() -> Vec<Case> {
    let two = || nights::all().into_iter().zip(nights::all());
    two().flat_map(|(one, other)| [Case::new(one, false), Case::new(other, true)]).collect()
}

/// Stops where a frame's emitted tracks differ.
fn compare(case: &Case) {
    let (mut port, mut rust) = (case.port(Lent::Needed), rules::Tracker::new(case.plus_plus));
    for (f, objects) in rules::objects(&case.night).iter().enumerate() {
        port.update(&case.night.frames[f]);
        let bits = |x: f32| x.to_bits() as u64;
        let emitted: Vec<[u64; 6]> = rust
            .update(objects)
            .iter()
            .map(|o| {
                let id = o.get_track_id().expect("an id") as u64;
                [id, bits(o.get_x()), bits(o.get_y()), bits(o.get_width()), bits(o.get_height()), bits(o.get_prob())]
            })
            .collect();
        assert!(port.emitted() == emitted, "{} frame {f}: different tracks", case.name());
        assert_eq!(port.state.count as usize, rust.0.tracker_count());
    }
}

/// Nanoseconds of each frame, after ten frames on another tracker, so that none is the first to run its code.
fn pass<W: FnMut(usize)>(frames: usize, tracker: impl Fn() -> W) -> Vec<f64> {
    (0..10).for_each(tracker());
    let mut work = tracker();
    let time = |f| {
        let start = Instant::now();
        work(f);
        start.elapsed().as_nanos() as f64
    };
    (0..frames).map(time).collect()
}

/// Each frame's median over the rounds.
fn medians(rounds: &[Vec<f64>]) -> Vec<f64> {
    (0..rounds[0].len()).map(|f| median(rounds.iter().map(|round| round[f]).collect())).collect()
}

const ROUNDS: usize = 31;

/// Each frame's nanoseconds: of the port, lent as needed and lent all, and of the Rust by the rules and with libm. They
/// take turns night by night.
fn times(case: &Case) -> [Vec<f64>; 4] {
    let frames = case.night.frames.len();
    let (of_rules, of_libm) = (rules::objects(&case.night), libm::objects(&case.night));
    let mut rounds: [Vec<Vec<f64>>; 4] = Default::default();
    for _ in 0..ROUNDS {
        for (k, lent) in [Lent::Needed, Lent::Whole].into_iter().enumerate() {
            rounds[k].push(pass(frames, || {
                let mut tracker = case.port(lent);
                move |f| tracker.update(black_box(&case.night.frames[f]))
            }));
        }
        rounds[2].push(pass(frames, || {
            let (mut tracker, objects) = (rules::Tracker::new(case.plus_plus), &of_rules);
            move |f| drop(black_box(tracker.update(black_box(&objects[f]))))
        }));
        rounds[3].push(pass(frames, || {
            let (mut tracker, objects) = (libm::Tracker::new(case.plus_plus), &of_libm);
            move |f| drop(black_box(tracker.update(black_box(&objects[f]))))
        }));
    }
    rounds.map(|of| medians(&of))
}

fn mean(s: &[f64]) -> f64 {
    s.iter().sum::<f64>() / s.len() as f64
}

fn most(s: &[f64]) -> f64 {
    s.iter().copied().fold(0.0, f64::max)
}

/// A figure of each, and the ratios: of both ways of lending to the Rust by the rules, and of the first to libm's.
fn line(case: &Case, what: &str, [needed, whole, rust, libm]: [f64; 4]) {
    let (name, Case { boxes, tracks, .. }) = (case.name(), case);
    let [a, b, c, d] = [needed, whole, rust, libm].map(|x| x / 1000.0);
    let [r, w, l] = [needed / rust, whole / rust, needed / libm];
    println!(
        "| {name} | {boxes} | {tracks} | {what} | {a:.2} | {b:.2} | {c:.2} | {d:.2} | {r:.2} | {w:.2} | {l:.2} |"
    );
}

fn table() {
    println!(
        "| night | boxes | tracks | frame | port, µs | lent all | Rust, µs | with libm | ratio | lent all | to libm |"
    );
    println!("|---|---|---|---|---|---|---|---|---|---|---|");
    for case in cases() {
        compare(&case);
        let times = times(&case);
        line(&case, "mean", times.each_ref().map(|s| mean(s)));
        line(&case, "slowest", times.each_ref().map(|s| most(s)));
    }
}

#[inline(never)]
#[unsafe(no_mangle)]
fn call_port(tracker: &mut port::Tracker, boxes: &[f32]) {
    tracker.update(boxes);
}

#[inline(never)]
#[unsafe(no_mangle)]
fn call_published(tracker: &mut rules::Tracker, objects: &[::rules::object::Object]) {
    drop(black_box(tracker.update(objects)));
}

fn once(whose: &str, case: &Case, last: usize) {
    let objects = rules::objects(&case.night);
    let (mut port, mut rust) = (case.port(Lent::Needed), rules::Tracker::new(case.plus_plus));
    for f in 0..last {
        match whose {
            "port" => port.update(&case.night.frames[f]),
            _ => drop(rust.update(&objects[f])),
        }
    }
    match whose {
        "port" => call_port(&mut port, &case.night.frames[last]),
        _ => call_published(&mut rust, &objects[last]),
    }
}

fn main() {
    let words: Vec<String> = std::env::args().skip(1).collect();
    match words.iter().map(String::as_str).collect::<Vec<_>>()[..] {
        [] => table(),
        ["largest"] => {
            for (number, case) in cases().iter().enumerate() {
                println!("{number}:{}:{}", case.largest, case.name());
            }
        }
        ["once", whose, number, frame] => {
            let number: usize = number.parse().expect("a night");
            let case = Case::new(nights::all().swap_remove(number / 2), number % 2 == 1);
            once(whose, &case, frame.parse().expect("a frame"));
        }
        _ => panic!("usage: driver [largest | once port|published NIGHT FRAME]"),
    }
}
