//! The inputs of the pairing, by kinds.

use crate::digest::next;

pub const KINDS: [&str; 13] = [
    "apart", "crowd", "whole", "flat", "mixed", "any", "tiny", "huge", "listed", "threshold", "limit", "wide",
    "negative",
];

/// The kinds that boxes have: the first nine.
pub const BOX_KINDS: usize = 9;

pub const CROWD: usize = 1;
pub const THRESHOLD: usize = 9;
pub const LIMIT: usize = 10;
pub const WIDE: usize = 11;

/// Which slice of a call.
pub const DETECTIONS: u64 = 0;
pub const CORNERS: u64 = 1;
pub const COST: u64 = 2;
pub const IOU: u64 = 3;
pub const DISTANCE: u64 = 4;
pub const TRACK_CONFIDENCE: u64 = 5;
pub const DETECTION_CONFIDENCE: u64 = 6;

/// Where the random numbers of a slice start.
pub fn seed(slice: u64, kind: usize, boxes: usize, tracks: usize) -> u64 {
    let sides = ((boxes as u64) << 32) ^ ((tracks as u64) << 16);
    next(next(88172645463325252 ^ sides ^ ((kind as u64) << 8) ^ slice))
}

/// 16 of a random number's bits, from 0 to 65535.
fn part(r: u64, k: u64) -> u64 {
    (r >> (16 * k)) % 65536
}

/// A random number from 0 up to 1.
fn unit(r: u64) -> f32 {
    (r >> 40) as f32 / 16777216.0
}

/// Zeros, ordinary numbers, the ends of the range, and what is no number.
pub fn listed(k: u64) -> f32 {
    const LISTED: [f32; 16] = [
        0.0, -0.0, 1.0, -1.0, 0.5, 0.3, 13.2767, 10.5, -65536.0, 1e-40, -1e-40, 3e38, -3e38, f32::INFINITY,
        f32::NEG_INFINITY, f32::NAN,
    ];
    LISTED[(k % 16) as usize]
}

/// Any bit pattern.
fn any(r: u64) -> f32 {
    f32::from_bits((r >> 32) as u32)
}

/// The lower corner of box i, in one direction.
fn low(kind: usize, i: usize, p: u64) -> f32 {
    match kind {
        0 => 40.0 * i as f32 + p as f32 / 8192.0,
        2 | 3 => (p % 4) as f32,
        6 => f32::from_bits((p % 256) as u32),
        7 => -(p as f32) * 1e34,
        _ => p as f32 / 1024.0,
    }
}

/// The size of a box, in one direction.
fn size(kind: usize, p: u64) -> f32 {
    match kind {
        0 => 24.0 + p as f32 / 8192.0,
        2 => 1.0 + (p % 3) as f32,
        3 => (p % 3) as f32 - 1.0,
        6 => f32::from_bits((p % 4096) as u32),
        7 => p as f32 * 1e34,
        _ => 8.0 + p as f32 / 4096.0,
    }
}

/// x1, y1, x2 or y2 of box i. Of any bit patterns each is drawn by itself, by steps enough for k to reach every bit.
fn corner(kind: usize, i: usize, k: u64, r: u64) -> f32 {
    match kind {
        5 => return any(next(next(next(r ^ k * 0x9e37_79b9)))),
        8 => return listed(part(r, k)),
        4 if r % 4 == 0 => return listed(part(r, k)),
        _ => {}
    }
    if k < 2 {
        low(kind, i, part(r, k))
    } else {
        low(kind, i, part(r, k - 2)) + size(kind, part(r, k))
    }
}

/// A cell of a matrix, or a confidence.
fn cell(kind: usize, i: usize, j: usize, tracks: usize, r: u64) -> f32 {
    match kind {
        0 if i % tracks == j => 0.5 + unit(r) / 2.0,
        0 => unit(r) / 4.0,
        1 => unit(r),
        2 => (part(r, 0) % 5) as f32 / 4.0,
        3 => 0.5,
        4 if r % 8 == 0 => listed(part(r, 1)),
        4 => unit(r),
        5 => any(r),
        6 => f32::from_bits((r % 8388608) as u32),
        7 => (part(r, 0) as f32 - 32768.0) * 1e34,
        8 => listed(part(r, 0)),
        9 => f32::from_bits(0x3e99_9999 + (r % 3) as u32),
        10 => f32::from_bits(0x4154_6d5c + (r % 3) as u32),
        11 => part(r, 0) as f32 / 2048.0,
        _ => unit(r) * -16.0,
    }
}

/// `length` floats of corners, four a box.
pub fn corners(slice: u64, kind: usize, boxes: usize, tracks: usize, length: usize) -> Vec<f32> {
    let mut r = seed(slice, kind, boxes, tracks);
    (0..length)
        .map(|k| {
            if k % 4 == 0 {
                r = next(r);
            }
            corner(kind, k / 4, (k % 4) as u64, r)
        })
        .collect()
}

/// `length` cells of a matrix, row by row.
pub fn cells(slice: u64, kind: usize, boxes: usize, tracks: usize, length: usize) -> Vec<f32> {
    let mut r = seed(slice, kind, boxes, tracks);
    let columns = tracks.max(1);
    (0..length)
        .map(|k| {
            r = next(r);
            cell(kind, k / columns, k % columns, columns, r)
        })
        .collect()
}

/// The kind of the distances that go with boxes of a kind.
pub fn distance_kind(kind: usize, boxes: usize) -> usize {
    match kind {
        0..4 if boxes % 4 == 0 => LIMIT,
        0..4 => WIDE,
        _ => kind,
    }
}

/// The kind of the confidences that go with boxes of a kind.
pub fn confidence_kind(kind: usize) -> usize {
    match kind {
        0..4 => CROWD,
        _ => kind,
    }
}

pub fn threshold(kind: usize, boxes: usize) -> f32 {
    match (kind, boxes % 7) {
        (THRESHOLD, _) | (_, 0..4) => 0.3,
        (_, 4) => 0.0,
        (_, 5) => 0.75,
        _ => listed(kind as u64),
    }
}

pub fn temperature(kind: usize, boxes: usize) -> f32 {
    match boxes % 7 {
        0 | 1 => 1.0,
        2 => 0.5,
        3 => 4.0,
        4 => 0.0,
        5 => -1.0,
        _ => listed(kind as u64),
    }
}

/// A weight of `associate`: the usual one, or in one of seven calls a listed float.
pub fn weight(kind: usize, boxes: usize, which: u64, usual: f32) -> f32 {
    if boxes % 7 == 6 {
        listed(kind as u64 * 3 + which)
    } else {
        usual
    }
}

// ---- labels

/// Both sides the same; two kinds; three kinds; three kinds, those of the tracks another way round; no two alike.
pub const LABELLINGS: [&str; 5] = ["same", "two", "three", "mixed", "unlike"];

/// The labels of so many boxes, or of so many tracks.
pub fn labels(labelling: usize, kind: usize, tracks: bool, length: usize) -> Vec<u8> {
    let of = |i: usize| match (labelling, tracks) {
        (0, _) => kind,
        (1, _) => i % 2,
        (2, _) => i,
        (3, false) => part(next(next(i as u64 + 1)), 0) as usize,
        (3, true) => part(next(next(i as u64 + 1)), 1) as usize,
        (_, false) => i % 2,
        (_, true) => 2,
    };
    (0..length).map(|i| 1 + (of(i) % 3) as u8).collect()
}
