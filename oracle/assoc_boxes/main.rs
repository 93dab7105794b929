//! The pairs of boxes of crates/assoc_boxes_vectors:
//!
//!     stdin      the records that it reads
//!     vectors    what it has to print: numerator, denominator and value of the cell that iou_batch of the published
//!                assoc.rs has of each

use oracle::digest::bits;
use oracle::overlap::overlap;
use oracle::random::Random;
use oracle::records::{Records, title};
use std::io::Write;

/// How a box and a track lie to each other in a direction.
const KINDS: [&str; 12] = [
    "partly", "touching", "apart", "inside", "same", "without area", "size below 0", "NaN", "infinity", "overflow",
    "subnormal", "any",
];
const PARTLY: usize = 0;
const PAIRS: usize = 48;

/// The box's low and high corner, then the track's.
type Corners = [f32; 4];

/// Box and track of an ordinary size, in steps that make sums and products round.
fn usual(kind: usize, random: &Random) -> Corners {
    let [a, b, c] = [0, 1, 2].map(|_| 1.0 + random.below(65536) as f32 / 1023.0);
    let (low, high) = (a - 32.0, a - 32.0 + b);
    match kind {
        1 => [low, high, high, high + c],
        2 => [low, high, high + c, high + c + a],
        3 => [low, high, low + b / 4.0, low + b / 2.0],
        4 => [low, high, low, high],
        _ => [low, high, low + b / 3.0, high + c],
    }
}

/// With a corner or a size that is not.
fn unusual(kind: usize, random: &Random) -> Corners {
    let mut s = usual(PARTLY, random);
    let (corner, either) = (random.index(4), random.index(3));
    match (kind, either) {
        (5, 0) => s[1] = s[0],
        (5, 1) => s[3] = s[2],
        (5, _) => s = [s[0], s[0], s[2], s[2]],
        (6, 0) => s.swap(0, 1),
        (6, 1) => s.swap(2, 3),
        (6, _) => s = [s[1], s[0], s[3], s[2]],
        (7, 0) => s = [f32::NAN; 4],
        (7, _) => s[corner] = f32::NAN,
        (8, 0) => s = [f32::NEG_INFINITY, f32::INFINITY, s[2], f32::INFINITY],
        (8, _) => s[corner] = random.pick(&[f32::INFINITY, f32::NEG_INFINITY]),
        (9, _) => s = s.map(|x| x * [1e18, 4e18, 3e36][either]),
        (10, _) => s = s.map(|x| f32::from_bits((((x + 32.0) * 16.0) as u32) << (4 * either))),
        _ => s = s.map(|_| random.any()),
    }
    s
}

fn corners(kind: usize, random: &Random) -> Corners {
    if kind < 5 { usual(kind, random) } else { unusual(kind, random) }
}

/// Of a kind in both directions, in the first or in the second, and partly over one another in the other.
fn pair(kind: usize, number: usize, random: &Random) -> [[f32; 4]; 2] {
    let [x, y] = [[kind, kind], [kind, PARTLY], [PARTLY, kind]][number % 3].map(|kind| corners(kind, random));
    let both = [[x[0], y[0], x[1], y[1]], [x[2], y[2], x[3], y[3]]];
    if number / 3 % 2 == 0 { both } else { [both[1], both[0]] }
}

fn hexadecimal(floats: &[f32]) -> String {
    floats.iter().map(|&x| format!(" {:08x}", bits(x))).collect()
}

fn main() {
    let (mut records, mut text) = (Records::default(), String::new());
    let random = Random::new("assoc_boxes", 1);
    for (kind, name) in KINDS.iter().enumerate() {
        for number in 0..PAIRS {
            let [detection, track] = pair(kind, number, &random);
            let name = format!("{name} {number}");
            records.words(&[1]);
            records.floats(&[detection, track].concat());
            records.title(&name);
            let (given, found) = (hexadecimal(&[detection, track].concat()), hexadecimal(&overlap(detection, track)));
            text += &format!("{} |{given} |{found}\n", title(&name));
        }
    }
    let out = match std::env::args().nth(1).as_deref() {
        Some("stdin") => records.0,
        Some("vectors") => text.into_bytes(),
        _ => panic!("stdin or vectors"),
    };
    std::io::stdout().write_all(&out).expect("what is printed");
}
