//! The label rule of document 02, which labels_assoc.list and labels_tracker.list put into the published files: the labels
//! of the boxes and tracks in hand, and of each id. Where none are given every box and track are alike.

use crate::boost_tracker::strack::KalmanBoxTracker;
use nalgebra::DMatrix;
use std::cell::RefCell;
use std::collections::HashMap;

#[derive(Default)]
struct Labels {
    boxes: Vec<u8>,
    tracks: Vec<u8>,
    of_ids: HashMap<usize, u8>,
}

thread_local! {
    static IN_HAND: RefCell<Option<Labels>> = const { RefCell::new(None) };
}

/// For a call of `associate`.
pub fn give(boxes: &[u8], tracks: &[u8]) {
    IN_HAND.set(Some(Labels { boxes: boxes.to_vec(), tracks: tracks.to_vec(), ..Labels::default() }));
}

/// For a frame: the labels of its boxes, and of the held tracks by their ids.
pub fn give_frame(boxes: &[u8], held: impl Iterator<Item = (usize, u8)>) {
    IN_HAND.set(Some(Labels { boxes: boxes.to_vec(), tracks: vec![], of_ids: held.collect() }));
}

/// No labels any more; those of the ids.
pub fn take() -> HashMap<usize, u8> {
    IN_HAND.take().unwrap_or_default().of_ids
}

fn change(what: impl FnOnce(&mut Labels)) {
    IN_HAND.with_borrow_mut(|labels| labels.as_mut().map(what));
}

// ---- what the lists call

/// The trackers of a frame, in their order.
pub fn begin(trackers: &[KalmanBoxTracker]) {
    change(|labels| labels.tracks = trackers.iter().map(|t| labels.of_ids[&t.id()]).collect());
}

/// The boxes of these indices remain.
pub fn retain(remain_inds: &[usize]) {
    change(|labels| labels.boxes = remain_inds.iter().map(|&i| labels.boxes[i]).collect());
}

/// "A new track takes its box's label."
pub fn start(det_idx: usize, id: usize) {
    change(|labels| drop(labels.of_ids.insert(id, labels.boxes[det_idx])));
}

pub fn alike(d: usize, t: usize) -> bool {
    IN_HAND.with_borrow(|labels| labels.as_ref().is_none_or(|labels| labels.boxes[d] == labels.tracks[t]))
}

/// "Where labels differ, the IoU, the cost given to the pairing and the DLO similarity of that box and track are taken as
/// 0."
pub fn zero(m: &mut DMatrix<f32>) {
    for d in 0..m.nrows() {
        for t in 0..m.ncols() {
            if !alike(d, t) {
                m[(d, t)] = 0.0;
            }
        }
    }
}
