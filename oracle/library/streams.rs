//! The streams of box records that trackbox is run on, of the scenes of the tracker's oracle and of rows of equal
//! boxes. docs/ORACLE.md says what each is for.

use crate::scenes;

pub struct Stream {
    pub name: &'static str,
    pub bytes: Vec<u8>,
}

fn put_labelled(bytes: &mut Vec<u8>, frame: u32, b: &[f32], label: u8) {
    bytes.extend(frame.to_le_bytes());
    b.iter().for_each(|x| bytes.extend(x.to_le_bytes()));
    bytes.push(label);
}

/// With label 1.
fn put(bytes: &mut Vec<u8>, frame: u32, b: &[f32]) {
    put_labelled(bytes, frame, b, 1);
}

/// `count` boxes of 32 by 48 in a frame, 64 apart in rows of ten; `shift` moves them to the right.
fn row(bytes: &mut Vec<u8>, frame: u32, count: usize, shift: usize) {
    for i in 0..count {
        let (left, top) = ((i % 10 * 64 + shift) as f32, (i / 10 * 64) as f32);
        put(bytes, frame, &[left, top, 32.0, 48.0, 0.75]);
    }
}

/// The same in each frame of a range.
fn rows(bytes: &mut Vec<u8>, frames: std::ops::Range<u32>, count: usize) {
    frames.for_each(|frame| row(bytes, frame, count, 0));
}

/// Scenes one after the other, each frame `step` after the one before; a frame without boxes has no record.
fn played(numbers: &[usize], step: u32) -> Vec<u8> {
    let (mut bytes, mut frame) = (Vec::new(), 0);
    for &s in numbers {
        let mut scene = scenes::scene(s);
        scene.start();
        for f in 0..scene.frames {
            frame += step;
            scene.sound_boxes(f).each().for_each(|(b, label)| put_labelled(&mut bytes, frame, &b, label));
        }
    }
    bytes
}

/// What is put into an empty stream.
fn made(fill: impl Fn(&mut Vec<u8>)) -> Vec<u8> {
    let mut bytes = Vec::new();
    fill(&mut bytes);
    bytes
}

/// Nine frames of three boxes, with something put in after the first `before` of them.
fn among(before: u32, fill: impl Fn(&mut Vec<u8>, u32)) -> Vec<u8> {
    made(|bytes| {
        rows(bytes, 1..before + 1, 3);
        fill(bytes, before + 1);
        rows(bytes, before + 2..10, 3);
    })
}

const GOOD: [f32; 5] = [10.0, 20.0, 32.0, 64.0, 0.75];
const BAD: [f32; 5] = [10.0, 20.0, 32.0, 0.0, 0.75];

fn accepted() -> Vec<(&'static str, Vec<u8>)> {
    vec![
        ("empty", vec![]),
        ("known", made(|b| put(b, 1, &GOOD))),
        ("night", played(&[0, 2, 10, 14, 3], 1)),
        ("crowd", played(&[4], 1)),
        ("ties", played(&[5], 1)),
        ("edges", played(&[30], 1)),
        ("tiny", played(&[7], 1)),
        ("flat", played(&[8], 1)),
        ("far", played(&[9], 1)),
        ("low", played(&[11], 1)),
        ("slow", played(&[3], 3)),
        // 32 held and 32 boxes: all 64 places.
        ("capacity", made(|b| rows(b, 1..21, 32))),
        // 64 at once, retired before the next.
        ("full", made(|b| {
            row(b, 1, 64, 0);
            rows(b, 40..45, 32);
        })),
        // Gaps of 1000, the most there may be, at the first record too.
        ("gaps", made(|b| [1000, 2005, 3010].iter().for_each(|&f| rows(b, f..f + 6, 3)))),
        // 30 frames without a box keep a track, 31 do not.
        ("ages", made(|b| [1..3, 33..39, 70..76].into_iter().for_each(|frames| rows(b, frames, 3)))),
    ]
}

/// 41 to 44, 15 and 16 at a first, a middle and the last place.
fn refused() -> Vec<(&'static str, Vec<u8>)> {
    let again = |b: &mut Vec<u8>, f: u32| put(b, f - 2, &GOOD);
    let jump = |b: &mut Vec<u8>, f: u32| put(b, f + 1000, &GOOD);
    let many = |b: &mut Vec<u8>, f: u32| row(b, f, 65, 0);
    let other = |b: &mut Vec<u8>, f: u32| row(b, f, 62, 16);
    let bad = |b: &mut Vec<u8>, f: u32| [GOOD, BAD, GOOD].iter().for_each(|x| put(b, f, x));
    vec![
        ("41_first", vec![1; 23]),
        ("41_second", [made(|b| put(b, 1, &GOOD)), vec![1]].concat()),
        ("41_last", [made(|b| rows(b, 1..10, 3)), vec![0; 12]].concat()),
        ("42_first", made(|b| put(b, 0, &GOOD))),
        ("42_middle", among(4, again)),
        ("42_zero", among(4, |b, _| put(b, 0, &GOOD))),
        ("42_last", among(9, again)),
        ("43_first", made(|b| put(b, 1001, &GOOD))),
        ("43_middle", among(4, jump)),
        ("43_last", among(9, jump)),
        ("43_huge", among(4, |b, _| put(b, u32::MAX, &GOOD))),
        ("44_first", among(0, many)),
        ("44_middle", among(4, many)),
        ("44_last", among(9, many)),
        ("15_second", among(1, other)),
        ("15_middle", among(4, other)),
        ("15_last", among(9, other)),
        ("16_first", among(0, bad)),
        ("16_middle", among(4, bad)),
        ("16_last", among(9, bad)),
    ]
}

/// Several at once: 41 to 44 are met in the stream's order, and the open frame is then not worked.
fn ordered() -> Vec<(&'static str, Vec<u8>)> {
    let bad_then = |fill: fn(&mut Vec<u8>)| {
        made(|b| {
            rows(b, 1..4, 3);
            put(b, 4, &BAD);
            fill(b);
        })
    };
    vec![
        ("16_then_41", bad_then(|b| b.extend([0; 23]))),
        ("16_then_42", bad_then(|b| put(b, 3, &GOOD))),
        ("16_then_43", bad_then(|b| put(b, 1005, &GOOD))),
        ("16_then_44", bad_then(|b| row(b, 4, 64, 0))),
        ("16_then_good", bad_then(|b| put(b, 900, &GOOD))),
        ("42_then_43", bad_then(|b| [3, 2000].iter().for_each(|&f| put(b, f, &GOOD)))),
        // 15 before 16: the bad box is in a frame that has too many.
        ("15_and_16", made(|b| {
            row(b, 1, 40, 0);
            row(b, 2, 24, 0);
            put(b, 2, &BAD);
        })),
        ("41_of_zeros", made(|b| {
            rows(b, 1..4, 3);
            b.extend([0; 5]);
        })),
    ]
}

/// A sleeper, and a partner over them from the fourth frame on, who alone is seen from the seventh to the ninth.
fn partner() -> Vec<u8> {
    made(|b| {
        for frame in 1..16 {
            if !(7..10).contains(&frame) {
                put_labelled(b, frame, &[10.0, 20.0, 64.0, 32.0, 0.875], 1);
            }
            if frame > 3 {
                put_labelled(b, frame, &[14.0, 20.0, 64.0, 32.0, 0.75], 2);
            }
        }
    })
}

/// Labels, and 20 at a first, a middle and the last place, behind 15, 16, 41 and 42.
fn labelled() -> Vec<(&'static str, Vec<u8>)> {
    let none = |b: &mut Vec<u8>, f: u32| (0..3).for_each(|i| put_labelled(b, f, &GOOD, [3, 2, 0][i]));
    let none_then = |fill: fn(&mut Vec<u8>)| {
        made(|b| {
            rows(b, 1..4, 3);
            none(b, 4);
            fill(b);
        })
    };
    vec![
        ("nurse", played(&[80, 82], 1)),
        ("ward", played(&[83], 1)),
        ("partner", partner()),
        ("20_first", among(0, none)),
        ("20_second", made(|b| {
            put(b, 1, &GOOD);
            none(b, 2);
        })),
        ("20_middle", among(4, none)),
        ("20_last", among(9, none)),
        ("20_of_4", among(4, |b, f| put_labelled(b, f, &GOOD, 4))),
        ("20_of_255", among(4, |b, f| put_labelled(b, f, &GOOD, 255))),
        ("16_and_20", none_then(|b| put(b, 4, &BAD))),
        ("15_and_20", none_then(|b| row(b, 4, 61, 0))),
        ("20_then_41", none_then(|b| b.extend([1; 24]))),
        ("20_then_42", none_then(|b| put(b, 3, &GOOD))),
        ("20_then_good", none_then(|b| put(b, 900, &GOOD))),
        // a record of the bytes before labels
        ("41_of_24", vec![1; 24]),
    ]
}

pub fn all() -> Vec<Stream> {
    let list = [accepted(), refused(), ordered(), labelled()].concat();
    list.into_iter().map(|(name, bytes)| Stream { name, bytes }).collect()
}
