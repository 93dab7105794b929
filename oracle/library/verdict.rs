//! The refusals of a frame, 11 to 19 from the scope document's words, 10 and 20 from document 02's, tested in their order,
//! and those of a drop, 11, 10, 101 and 102; nothing of the port's.

use crate::boxes::Boxes;
use jamtrack_rs::boost_tracker::boost_tracker::inside::Settings;
use std::collections::HashSet;

/// What stands beside the lent table, in the form of include/bedside.h.
#[derive(Clone, Copy)]
#[repr(C)]
pub struct State {
    pub count: u64,
    pub last: u64,
    pub frames: u64,
}

/// What a call of a frame is lent and given. `out`, `work64` and `work32` are lengths: no refusal looks into them.
pub struct Call<'a> {
    pub settings: &'a Settings,
    pub state: State,
    pub floats: &'a [f32],
    pub counters: &'a [u64],
    pub labels: &'a [u8],
    pub boxes: &'a Boxes,
    pub out: usize,
    pub work64: usize,
    pub work32: usize,
}

/// "As many tracks as its slices allow, at most 255"; a label is a byte a place.
pub fn capacity(floats: &[f32], counters: &[u64], labels: &[u8]) -> usize {
    (floats.len() / 24).min(counters.len() / 4).min(labels.len()).min(255)
}

/// "Count is at most its capacity, ids rise strictly from 1 or more, none exceeds last id, last id is at most 255 ×
/// frame count, and every counter but id is at most frame count."
fn sound(State { count, last, frames }: State, places: usize, counters: &[u64]) -> bool {
    if count > places as u64 || last as u128 > 255 * frames as u128 {
        return false;
    }
    let mut before = 0;
    for track in counters.chunks_exact(4).take(count as usize) {
        if track[0] <= before || track[0] > last || track[1..].iter().any(|&k| k > frames) {
            return false;
        }
        before = track[0];
    }
    true
}

/// "A label other than 1 to 3."
pub fn unlabelled(label: u8) -> bool {
    !(1..=3).contains(&label)
}

/// "A float of a held track not finite, or a predicted A + R not positive and finite."
fn workable(track: &[f32]) -> bool {
    let corrected = |(pair, r): (&[f32], f32)| {
        let [a, b, c, d] = [pair[2], pair[3], pair[4], pair[5]];
        let sum = (((a + c) + (b + d)) + 1.0) + r;
        sum > 0.0 && sum.is_finite()
    };
    track.iter().all(|x| x.is_finite()) && track.chunks_exact(6).zip([1.0, 1.0, 10.0, 0.01]).all(corrected)
}

fn settings_finite(s: &Settings) -> bool {
    [s.det_thresh, s.iou_threshold, s.dlo_boost_coef].iter().chain(&s.lambdas).all(|x| x.is_finite())
}

/// "A value not finite, width or height not above 0, left, top, width or height beyond 65536 in magnitude, or score
/// outside 0 to 1."
pub fn bad_box(b: &[f32]) -> bool {
    let [left, top, width, height, score] = [b[0], b[1], b[2], b[3], b[4]];
    let sized = width > 0.0 && height > 0.0;
    let near = [left, top, width, height].iter().all(|x| x.abs() <= 65536.0);
    let scored = score >= 0.0 && score <= 1.0;
    !(b.iter().all(|x| x.is_finite()) && sized && near && scored)
}

impl Call<'_> {
    fn places(&self) -> usize {
        capacity(self.floats, self.counters, self.labels)
    }
}

/// The number, 0 where the frame is accepted, and with 16 and 20 the lowest box concerned: "10 a label other than 1 to 3
/// of a held track, after 11 and before 12; 20 such a label in a box, with the lowest such index, after 16 and before 17".
pub fn verdict(call: &Call) -> (u32, usize) {
    let boxes = call.boxes.count();
    if !sound(call.state, call.places(), call.counters) {
        return (11, 0);
    }
    let held = call.state.count as usize;
    if call.labels[..held].iter().copied().any(unlabelled) {
        return (10, 0);
    }
    if !call.floats.chunks_exact(24).take(held).all(workable) {
        return (12, 0);
    }
    if !settings_finite(call.settings) {
        return (13, 0);
    }
    if boxes > 255 {
        return (14, 0);
    }
    if held + boxes > call.places() {
        return (15, 0);
    }
    if let Some(index) = call.boxes.each().position(|(values, _)| bad_box(&values)) {
        return (16, index);
    }
    if let Some(index) = call.boxes.each().position(|(_, label)| unlabelled(label)) {
        return (20, index);
    }
    if call.state.frames >= 2147483647 {
        return (17, 0);
    }
    if call.out / 33 < held + boxes {
        return (18, 0);
    }
    let n = held.max(boxes);
    if call.work64 < n * n || call.work32 < 4 * n * n {
        return (19, 0);
    }
    (0, 0)
}

/// The number of a drop, 0 where it is accepted: "11, then 10 of the frame; then 101 an id given twice; then 102 an id not
/// held".
pub fn drop_verdict(state: State, places: usize, counters: &[u64], labels: &[u8], ids: &[u64]) -> u32 {
    if !sound(state, places, counters) {
        return 11;
    }
    let held = state.count as usize;
    if labels[..held].iter().copied().any(unlabelled) {
        return 10;
    }
    let different: HashSet<u64> = ids.iter().copied().collect();
    if different.len() < ids.len() {
        return 101;
    }
    let ids_held: HashSet<u64> = counters.chunks_exact(4).take(held).map(|track| track[0]).collect();
    if different.is_subset(&ids_held) { 0 } else { 102 }
}
