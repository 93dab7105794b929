//! Calls of a frame with edits that get it refused, or nearly, alone and together: three tracks, two boxes, six places.

use crate::boxes::Boxes;
use crate::frame::{Table, needed};
use crate::scenes;
use crate::verdict::State;

const EDITS: usize = 63;

/// The edits that stand for 11 to 19 where several are made at once.
const OF_EACH: [usize; 9] = [0, 9, 15, 22, 21, 23, 35, 37, 39];

/// The same with 10 and 20, in the order of the refusals.
const LABELLED: [usize; 11] = [0, 51, 9, 15, 22, 21, 23, 56, 35, 37, 39];

const BEYOND: f32 = f32::from_bits(0x4780_0001);

struct Edited {
    table: Table,
    boxes: Boxes,
    /// What is lent more, or less, than is needed.
    out: isize,
    work64: isize,
    work32: isize,
}

/// Tracks 2, 4 and 6 of 9, 40 apart, and boxes 1 to the right of the first two; 20 frames.
fn base() -> Edited {
    let mut floats = vec![scenes::JUNK as f32; 6 * 24 + 5];
    let mut counters = vec![scenes::JUNK; 6 * 4 + 3];
    for i in 0..3 {
        for (k, p) in [40.0 * i as f32, 0.0, 32.0, 0.5].into_iter().enumerate() {
            floats[24 * i + 6 * k..24 * i + 6 * k + 6].copy_from_slice(&[p, 0.25, 2.0, 0.5, 0.75, 1.0]);
        }
        counters[4 * i..4 * i + 4].copy_from_slice(&[2 * i as u64 + 2, i as u64, 3, 10]);
    }
    let settings = scenes::scene(0).settings;
    let labels = [&[1; 3][..], &[scenes::JUNK as u8; 5]].concat();
    let table = Table::new(settings, State { count: 3, last: 9, frames: 20 }, floats, counters, labels);
    Edited { table, boxes: boxes(2), out: 0, work64: 0, work32: 0 }
}

/// The table of such a call.
pub fn base_table() -> Table {
    base().table
}

/// 40 apart, of 16 by 32.
fn boxes(count: usize) -> Boxes {
    let mut boxes = Boxes::default();
    (0..count).for_each(|i| boxes.push([40.0 * i as f32 - 7.0, -16.0, 16.0, 32.0, 0.75], 1));
    boxes
}

fn edit_state(call: &mut Edited, number: usize) {
    let Table { state, counters, .. } = &mut call.table;
    match number {
        0 => state.count = 7,
        1 => counters[0] = 0,
        2 => counters[4] = 2,
        3 => counters[8] = 3,
        4 => state.last = 5,
        5 => state.last = 5101,
        6 => counters[5] = 21,
        7 => counters[10] = 21,
        8 => counters[3] = 21,
        35 => state.frames = 2147483647,
        36 => state.frames = 2147483646,
        43 => state.last = 5100,
        44 => counters[5..8].fill(20),
        _ => counters[8] = 9,
    }
}

fn edit_track(call: &mut Edited, number: usize) {
    let f = &mut call.table.floats;
    match number {
        9 => f[0] = f32::NAN,
        10 => f[47] = f32::INFINITY,
        11 => f[30] = f32::NEG_INFINITY,
        // The predicted A of x is −1, of h an infinity, of r −1/2.
        12 => f[50..54].copy_from_slice(&[-2.0, 0.0, 0.0, 0.0]),
        13 => f[14..18].copy_from_slice(&[3e38, 0.0, 0.0, 3e38]),
        14 => f[20..24].copy_from_slice(&[-1.5, 0.0, 0.0, 0.0]),
        // Of y −127/128.
        _ => f[8..12].copy_from_slice(&[-1.9921875, 0.0, 0.0, 0.0]),
    }
}

fn edit_setting(call: &mut Edited, number: usize) {
    let s = &mut call.table.settings;
    match number {
        15 => s.det_thresh = f32::NAN,
        16 => s.iou_threshold = f32::INFINITY,
        17 => s.lambdas[0] = f32::NEG_INFINITY,
        18 => s.lambdas[1] = f32::NAN,
        19 => s.lambdas[2] = f32::INFINITY,
        _ => s.dlo_boost_coef = f32::NAN,
    }
}

fn edit_box(call: &mut Edited, number: usize) {
    let b = &mut call.boxes.values;
    match number {
        23 => b[0] = f32::NAN,
        24 => b[6] = f32::INFINITY,
        25 => b[2] = 0.0,
        26 => b[7] = -0.0,
        27 => b[3] = -1.0,
        28 => b[5] = BEYOND,
        29 => b[1] = -BEYOND,
        30 => b[7] = BEYOND,
        31 => b[3] = 1e38,
        32 => b[9] = -0.001,
        33 => b[4] = f32::from_bits(0x3f80_0001),
        34 => b[9] = f32::NAN,
        41 => b[4] = -0.0,
        _ => b[5..9].copy_from_slice(&[65536.0, -65536.0, 65536.0, 65536.0]),
    }
}

/// Of the held tracks 0, 4 and a slice that ends before the last; of the boxes 0, 4, 255, one missing and all; what is
/// accepted: three kinds, and labels behind the boxes that are none; and places by the labels, one too few and just enough.
fn edit_labels(call: &mut Edited, number: usize) {
    let (held, given) = (&mut call.table.labels, &mut call.boxes.labels);
    match number {
        51 => held[0] = 0,
        52 => held[2] = 4,
        53 => held.truncate(2),
        54 => given[0] = 0,
        55 => given[1] = 4,
        56 => given.fill(255),
        57 => given.truncate(1),
        58 => given.clear(),
        59 => (held[1], held[2], given[1]) = (2, 3, 2),
        60 => given.extend([0, 9]),
        61 => held.truncate(4),
        _ => held.truncate(5),
    }
}

fn edit(call: &mut Edited, number: usize) {
    match number {
        0..9 | 35 | 36 | 43 | 44 | 47 => edit_state(call, number),
        9..15 | 46 => edit_track(call, number),
        15..21 => edit_setting(call, number),
        21 => call.boxes = boxes(4),
        22 => call.boxes = boxes(256),
        23..35 | 41 | 42 => edit_box(call, number),
        37 => call.out = -1,
        38 => call.out = 32,
        39 => call.work64 = -1,
        40 => call.work32 = -1,
        45 => call.boxes = boxes(3),
        // A rest of four floats that is not looked at; counters for a seventh place, and for four places alone.
        48 => call.boxes.values.extend([f32::NAN; 4]),
        49 => call.table.counters.extend([scenes::JUNK; 4]),
        50 => call.table.counters.truncate(19),
        _ => edit_labels(call, number),
    }
}

/// A call by itself: the edits that it has, and what it is given and lent.
pub struct Single {
    pub mask: u64,
    pub table: Table,
    pub boxes: Boxes,
    pub lengths: [usize; 3],
}

/// The call with the edits of the numbers in the mask, in ascending order.
fn single(mask: u64) -> Single {
    let mut call = base();
    (0..EDITS).filter(|k| mask >> k & 1 == 1).for_each(|k| edit(&mut call, k));
    let Edited { table, boxes, out, work64, work32 } = call;
    let needed = needed(table.state.count as usize, boxes.count());
    let more = [out, work64, work32];
    Single { mask, table, boxes, lengths: std::array::from_fn(|k| needed[k].strict_add_signed(more[k])) }
}

/// Two of these at once, then all from each on but the last two.
fn together(of_each: &'static [usize]) -> impl Iterator<Item = u64> {
    let two = move |i: usize| of_each[i + 1..].iter().map(move |b| 1 << of_each[i] | 1 << b);
    let many = (0..of_each.len() - 2).map(|i: usize| of_each[i..].iter().fold(0, |mask, k| mask | 1 << k));
    (0..of_each.len()).flat_map(two).chain(many)
}

/// Those without an edit of labels first.
pub fn all() -> Vec<Single> {
    let of_labels = |mask: &u64| mask >> 51 != 0;
    let labelled = (51..EDITS).map(|k| 1 << k).chain(together(&LABELLED).filter(of_labels));
    (0..51).map(|k| 1 << k).chain(together(&OF_EACH)).chain(labelled).map(single).collect()
}
