//! Cells of matrices that are too large to be given float by float, drawn by their places as crates/vectors draws them.

use crate::digest::next;
use crate::inputs::{self, listed};

/// One pass over a slice: the cells whose places are multiples of `step` + 1 get one of the patterns, or one up to
/// `spread` above it.
pub struct Pass {
    pub seed: u64,
    pub spread: u32,
    pub step: u32,
    pub patterns: [u32; 16],
}

impl Pass {
    fn cell(&self, k: usize) -> f32 {
        let r = next(next(next(self.seed ^ (k as u64 * 0x9e37_79b9))));
        let above = (r >> 32) % (self.spread as u64 + 1);
        f32::from_bits(self.patterns[(r % 16) as usize].wrapping_add(above as u32))
    }

    fn draw(&self, out: &mut [f32]) {
        (0..out.len()).step_by(self.step as usize + 1).for_each(|k| out[k] = self.cell(k));
    }
}

/// The floats of a slice; where it has passes, these draw them.
pub struct Slice {
    pub floats: Vec<f32>,
    pub passes: Vec<Pass>,
}

/// What one pass of a kind is: patterns, spread and step.
type Manner = ([u32; 16], u32, u32);

fn floats(of: impl Fn(usize) -> f32, spread: u32) -> Manner {
    (std::array::from_fn(|k| of(k).to_bits()), spread, 0)
}

/// The kinds of inputs.rs, as near as patterns come to them.
fn manners(kind: usize, columns: usize) -> Vec<Manner> {
    let crowd = || floats(|k| if k == 0 { 0.0078125 } else { k as f32 / 16.0 }, 0x7_ffff);
    match kind {
        0 => vec![([0x3d00_0000; 16], 0x17f_ffff, 0), ([0x3f00_0000; 16], 0x7f_ffff, columns as u32)],
        1 => vec![crowd()],
        2 => vec![floats(|k| (k % 5) as f32 / 4.0, 0)],
        3 => vec![floats(|_| 0.5, 0)],
        4 => vec![crowd(), (floats(|k| listed(k as u64), 0).0, 0, 6)],
        5 => vec![([0; 16], u32::MAX, 0)],
        6 => vec![([0; 16], 0x7f_ffff, 0)],
        7 => vec![(std::array::from_fn(|k| if k % 2 == 0 { 0x7d00_0000 } else { 0xfd00_0000 }), 0x1ff_ffff, 0)],
        8 => vec![floats(|k| listed(k as u64), 0)],
        9 => vec![([0x3e99_9999; 16], 2, 0)],
        10 => vec![([0x4154_6d5c; 16], 2, 0)],
        11 => vec![floats(|k| if k == 0 { 0.5 } else { 2.0 * k as f32 }, 0x3_ffff)],
        _ => vec![floats(|k| -1.0 - k as f32, 0x3_ffff)],
    }
}

/// More cells than this are drawn.
const GIVEN: usize = 512;

/// `length` cells of a matrix, row by row.
pub fn cells(slice: u64, kind: usize, boxes: usize, tracks: usize, length: usize) -> Slice {
    if length <= GIVEN {
        return Slice { floats: inputs::cells(slice, kind, boxes, tracks, length), passes: vec![] };
    }
    let mut seed = inputs::seed(slice, kind, boxes, tracks);
    let mut pass = |(patterns, spread, step): Manner| {
        seed = next(seed);
        Pass { seed, spread, step, patterns }
    };
    let passes: Vec<Pass> = manners(kind, tracks).into_iter().map(&mut pass).collect();
    let mut floats = vec![0.0; length];
    passes.iter().for_each(|pass| pass.draw(&mut floats));
    Slice { floats, passes }
}

/// `length` floats of corners, four a box.
pub fn corners(slice: u64, kind: usize, boxes: usize, tracks: usize, length: usize) -> Slice {
    Slice { floats: inputs::corners(slice, kind, boxes, tracks, length), passes: vec![] }
}
