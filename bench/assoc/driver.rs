//! The port's pairing beside the published assoc.rs, on the same inputs.
//!
//!     driver                            times of all
//!     driver once WHOSE ROUTINE B T     one call, for a tool that counts instructions; WHOSE is port or published
//!
//! The published file is here twice: with the scope document's float functions, and as it is, with libm's exponential.

#[path = "../clock.rs"]
mod clock;
#[allow(dead_code)]
#[path = "../../oracle/library/digest.rs"]
mod digest;
#[path = "../../oracle/lapjv/error.rs"]
mod error;
mod floats;
#[allow(dead_code)]
#[path = "../../oracle/library/inputs.rs"]
mod inputs;
mod port;
#[allow(warnings)]
mod lapjv {
    include!(concat!(env!("PUBLISHED"), "/lapjv.rs"));
}
#[allow(warnings)]
mod published {
    include!(concat!(env!("PUBLISHED"), "/assoc.rs"));
}
#[allow(warnings)]
mod with_libm {
    include!(concat!(env!("PUBLISHED"), "/assoc_libm.rs"));
}

use clock::{median, thread_time};
use inputs::{cells, corners};
use nalgebra::DMatrix;
use port::Room;
use std::hint::black_box;
use std::time::Duration;

/// The inputs of all routines, as each side takes them: crowded boxes, distances from 0 to 32, costs from 0 up to 1.
struct Case {
    boxes: usize,
    tracks: usize,
    flat_detections: Vec<f32>,
    flat_tracks: Vec<f32>,
    flat_distance: Vec<f32>,
    flat_cost: Vec<f32>,
    flat_sparse: Vec<f32>,
    track_confidence: Vec<f32>,
    detection_confidence: Vec<f32>,
    detections: Vec<[f32; 4]>,
    corners: Vec<[f32; 4]>,
    distance: DMatrix<f32>,
    cost: DMatrix<f32>,
    sparse: DMatrix<f32>,
}

const APART: usize = 0;

fn boxes_of(s: &[f32]) -> Vec<[f32; 4]> {
    s.chunks_exact(4).map(|c| [c[0], c[1], c[2], c[3]]).collect()
}

fn matrix_of(boxes: usize, tracks: usize, s: &[f32]) -> DMatrix<f32> {
    let mut m = DMatrix::zeros(boxes, tracks);
    for (k, &x) in s.iter().enumerate() {
        m[(k / tracks, k % tracks)] = x;
    }
    m
}

impl Case {
    fn new(boxes: usize, tracks: usize) -> Case {
        let of_boxes = |slice, n| corners(slice, inputs::CROWD, boxes, tracks, 4 * n);
        let of_cells = |slice, kind, n| cells(slice, kind, boxes, tracks, n);
        let flat_detections = of_boxes(inputs::DETECTIONS, boxes);
        let flat_tracks = of_boxes(inputs::CORNERS, tracks);
        let flat_distance = of_cells(inputs::DISTANCE, inputs::WIDE, boxes * tracks);
        let flat_cost = of_cells(inputs::COST, inputs::CROWD, boxes * tracks);
        let flat_sparse = of_cells(inputs::IOU, APART, boxes * tracks);
        Case {
            boxes,
            tracks,
            detections: boxes_of(&flat_detections),
            corners: boxes_of(&flat_tracks),
            distance: matrix_of(boxes, tracks, &flat_distance),
            cost: matrix_of(boxes, tracks, &flat_cost),
            sparse: matrix_of(boxes, tracks, &flat_sparse),
            track_confidence: of_cells(inputs::TRACK_CONFIDENCE, inputs::CROWD, tracks),
            detection_confidence: of_cells(inputs::DETECTION_CONFIDENCE, inputs::CROWD, boxes),
            flat_detections,
            flat_tracks,
            flat_distance,
            flat_cost,
            flat_sparse,
        }
    }
}

/// What the published file answers.
enum Answer {
    Matrix(DMatrix<f32>),
    Pairs(Vec<(usize, usize)>, Vec<usize>, Vec<usize>),
}

/// A module of the published file, each routine under its name.
macro_rules! calls {
    ($name:ident, $file:ident) => {
        mod $name {
            use crate::{$file, Answer, Case};

            pub fn iou_batch(c: &Case) -> Answer {
                Answer::Matrix($file::iou_batch(&c.detections, &c.corners))
            }

            pub fn soft_biou_batch(c: &Case) -> Answer {
                Answer::Matrix($file::soft_biou_batch(&c.detections, &c.corners, &c.track_confidence))
            }

            pub fn shape_similarity_v1(c: &Case) -> Answer {
                Answer::Matrix($file::shape_similarity_v1(&c.detections, &c.corners))
            }

            pub fn shape_similarity_v2(c: &Case) -> Answer {
                Answer::Matrix($file::shape_similarity_v2(&c.detections, &c.corners))
            }

            pub fn mh_dist_similarity(c: &Case) -> Answer {
                Answer::Matrix($file::mh_dist_similarity(&c.distance, 1.0))
            }

            pub fn match_directly(c: &Case) -> Answer {
                Answer::Pairs($file::match_detections(&c.sparse, 0.3), vec![], vec![])
            }

            pub fn match_by_lapjv(c: &Case) -> Answer {
                Answer::Pairs($file::match_detections(&c.cost, 0.3), vec![], vec![])
            }

            pub fn linear_assignment(c: &Case) -> Answer {
                let r = $file::linear_assignment(&c.sparse, &c.cost, 0.3, None);
                Answer::Pairs(r.matches, r.unmatched_detections, r.unmatched_tracks)
            }

            pub fn associate(c: &Case) -> Answer {
                let r = $file::associate(
                    &c.detections,
                    &c.corners,
                    &$file::AssociateParams::default(),
                    Some(&c.distance),
                    Some(&c.track_confidence),
                    Some(&c.detection_confidence),
                );
                Answer::Pairs(r.matches, r.unmatched_detections, r.unmatched_tracks)
            }
        }
    };
}

calls!(by_rules, published);
calls!(by_libm, with_libm);

struct Routine {
    name: &'static str,
    port: fn(&Case, &mut Room),
    published: fn(&Case) -> Answer,
    with_libm: fn(&Case) -> Answer,
}

macro_rules! routine {
    ($name:ident) => {
        Routine {
            name: stringify!($name),
            port: port::$name,
            published: by_rules::$name,
            with_libm: by_libm::$name,
        }
    };
}

const ROUTINES: [Routine; 9] = [
    routine!(iou_batch),
    routine!(soft_biou_batch),
    routine!(shape_similarity_v1),
    routine!(shape_similarity_v2),
    routine!(mh_dist_similarity),
    routine!(match_directly),
    routine!(match_by_lapjv),
    routine!(linear_assignment),
    routine!(associate),
];

/// The port leaves in its room what the published file answers.
fn agrees(case: &Case, room: &Room, answer: &Answer) -> bool {
    match answer {
        Answer::Matrix(m) => (0..case.boxes * case.tracks).all(|k| {
            let (a, b) = (room.out[k], m[(k / case.tracks, k % case.tracks)]);
            a == b || a.is_nan() && b.is_nan()
        }),
        Answer::Pairs(pairs, left, right) => {
            let [n, l, r] = room.counts;
            let zipped = room.pairs[0][..n].iter().copied().zip(room.pairs[1][..n].iter().copied());
            zipped.eq(pairs.iter().copied()) && room.unmatched[0][..l] == left[..] && room.unmatched[1][..r] == right[..]
        }
    }
}

fn time(calls: u32, mut call: impl FnMut()) -> f64 {
    let start = thread_time();
    for _ in 0..calls {
        call();
    }
    (thread_time() - start).as_nanos() as f64 / calls as f64
}

/// Nanoseconds of a call of each, and the two ratios: medians over rounds in which the three take turns.
fn medians(routine: &Routine, case: &Case) -> [f64; 5] {
    let mut room = Room::new(case.boxes, case.tracks);
    (routine.port)(case, &mut room);
    assert!(agrees(case, &room, &(routine.published)(case)), "{}: different answers", routine.name);
    let one = time(1, || drop(black_box((routine.published)(case)))).max(1.0);
    let calls = (Duration::from_millis(1).as_nanos() as f64 / one).clamp(1.0, 10_000.0) as u32;
    let mut columns: [Vec<f64>; 5] = Default::default();
    for _ in 0..61 {
        let port = time(calls, || (routine.port)(black_box(case), &mut room));
        let published = time(calls, || drop(black_box((routine.published)(case))));
        let libm = time(calls, || drop(black_box((routine.with_libm)(case))));
        for (column, value) in columns.iter_mut().zip([port, published, libm, port / published, port / libm]) {
            column.push(value);
        }
    }
    columns.map(median)
}

fn table() {
    println!("| routine | boxes × tracks | port, ns | Rust, ns | Rust with libm, ns | ratio | ratio to libm |");
    println!("|---|---|---|---|---|---|---|");
    for routine in &ROUTINES {
        for (boxes, tracks) in [(12, 16), (64, 64), (255, 255)] {
            let [port, published, libm, ratio, to_libm] = medians(routine, &Case::new(boxes, tracks));
            let name = routine.name;
            println!(
                "| {name} | {boxes} × {tracks} | {port:.0} | {published:.0} | {libm:.0} | {ratio:.2} | {to_libm:.2} |"
            );
        }
    }
}

#[inline(never)]
#[no_mangle]
fn call_port(routine: &Routine, case: &Case, room: &mut Room) {
    (routine.port)(case, room);
}

#[inline(never)]
#[no_mangle]
fn call_published(routine: &Routine, case: &Case) {
    drop(black_box((routine.published)(case)));
}

fn main() {
    let words: Vec<String> = std::env::args().skip(1).collect();
    let words: Vec<&str> = words.iter().map(String::as_str).collect();
    let [whose, name, boxes, tracks] = match words[..] {
        [] => return table(),
        ["once", whose, name, boxes, tracks] => [whose, name, boxes, tracks],
        _ => panic!("usage: driver [once port|published ROUTINE BOXES TRACKS]"),
    };
    let routine = ROUTINES.iter().find(|r| r.name == name).expect("a routine");
    let case = Case::new(boxes.parse().expect("a side"), tracks.parse().expect("a side"));
    match whose {
        "port" => call_port(routine, &case, &mut Room::new(case.boxes, case.tracks)),
        _ => call_published(routine, &case),
    }
}
