//! A tracker of the published boost_tracker.rs from settings and a table, and back: a module below it, which sees its
//! fields.

use super::BoostTracker;
use crate::boost_tracker::strack::inside::{self, Track};

#[derive(Clone, Copy)]
pub struct Settings {
    pub det_thresh: f32,
    pub iou_threshold: f32,
    pub lambdas: [f32; 3],
    pub dlo_boost_coef: f32,
    pub max_age: u64,
    pub min_hits: u64,
    /// 1 DLO, 2 DUO, 4 rich, 8 soft, 16 varying, 32 shape v1; others are not the published tracker's
    pub flags: u64,
}

impl Settings {
    /// As words: the floats' bits, and the numbers.
    pub fn words(&self) -> [u64; 9] {
        let [iou, mhd, shape] = self.lambdas;
        let floats = [self.det_thresh, self.iou_threshold, iou, mhd, shape, self.dlo_boost_coef];
        let numbers = [self.max_age, self.min_hits, self.flags];
        std::array::from_fn(|k| if k < 6 { floats[k].to_bits() as u64 } else { numbers[k - 6] })
    }

    pub fn of(words: &[u64]) -> Settings {
        let float = |k: usize| f32::from_bits(words[k] as u32);
        Settings {
            det_thresh: float(0),
            iou_threshold: float(1),
            lambdas: [float(2), float(3), float(4)],
            dlo_boost_coef: float(5),
            max_age: words[6],
            min_hits: words[7],
            flags: words[8],
        }
    }
}

/// By `new` and the `with_` options; what none of these reaches is set.
pub fn tracker(s: &Settings) -> BoostTracker {
    let on = |bit: u64| s.flags & bit != 0;
    let (max_age, min_hits) = (s.max_age as usize, s.min_hits as usize);
    let mut t = BoostTracker::new(s.det_thresh, s.iou_threshold, max_age, min_hits);
    if s.lambdas != [0.5, 0.25, 0.25] {
        t = t.with_lambdas(s.lambdas[0], s.lambdas[1], s.lambdas[2]);
    }
    if !on(1) || !on(2) {
        t = t.with_boost(on(1), on(2));
    }
    if on(32) {
        t = t.with_shape_similarity_v1();
    }
    if s.dlo_boost_coef != 0.65 {
        t.dlo_boost_coef = s.dlo_boost_coef;
    }
    match s.flags & 28 {
        0 => {}
        4 => t = t.with_boost_plus(),
        28 => t = t.with_boost_plus_plus(),
        _ => (t.use_rich_similarity, t.use_soft_boost, t.use_varying_threshold) = (on(4), on(8), on(16)),
    }
    t
}

pub fn start(t: &mut BoostTracker, tracks: &[Track], last: u64, frames: u64) {
    t.trackers = tracks.iter().map(inside::from).collect();
    t.track_id_count = last as usize;
    t.frame_count = frames as usize;
}

/// The tracks, the last id and the frame count.
pub fn table(t: &BoostTracker) -> (Vec<Track>, u64, u64) {
    (t.trackers.iter().map(inside::to).collect(), t.track_id_count as u64, t.frame_count as u64)
}

/// The tracks with these ids leave the list. The published tracker drops none by its id, so this hand is ours: document 02,
/// N11, "the same tracks leave its list at each drop".
pub fn forget(t: &mut BoostTracker, ids: &[u64]) {
    t.trackers.retain(|track| !ids.contains(&(track.id() as u64)));
}
