//! What became of a box of a frame, by what the published tracker did with it.

use crate::overlap::overlap;
use jamtrack_rs::stages::Stages;

/// In the form of include/bedside.h, but for the refusal.
pub struct Told {
    /// 1 matched, 2 started in no pair, 3 under the threshold, 4 rejected as a pair and started.
    pub fate: u32,
    /// Of the track matched or started.
    pub id: u64,
    /// As given, after DLO, and after DUO.
    pub scores: [f32; 3],
    /// The track that it was paired with: id, and IoU, intersection and union. Zeros where there is none.
    pub paired_id: u64,
    pub overlap: [f32; 3],
}

fn id_of(noted: &[(usize, u64)], d: usize) -> Option<u64> {
    noted.iter().find(|one| one.0 == d).map(|one| one.1)
}

/// Of box b as given. The IoU is the cell that the frame looked at, under the label rule; the areas are those of the
/// published iou_batch.
pub fn told(stages: &Stages, b: usize) -> Told {
    let scores = [0, 1, 2].map(|k| stages.scores[k][b]);
    let under = Told { fate: 3, id: 0, scores, paired_id: 0, overlap: [0.0; 3] };
    let Some(d) = stages.retained.iter().position(|&k| k == b) else { return under };
    let (matched, started) = (id_of(&stages.matched, d), id_of(&stages.started, d));
    let id = matched.or(started).unwrap_or(0);
    let Some(pair) = stages.proposed.iter().find(|pair| pair.detection == d) else { return Told { fate: 2, id, ..under } };
    let [intersection, union, _] = overlap(stages.corners[b], stages.tracks[pair.track]);
    let (paired_id, overlap) = (stages.ids[pair.track], [pair.iou, intersection, union]);
    Told { fate: if matched.is_some() { 1 } else { 4 }, id, scores, paired_id, overlap }
}
