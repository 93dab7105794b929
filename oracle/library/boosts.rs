//! The boosts and the pairing of a frame, for crates/boosts_vectors: a record of what they are given, and the line that it
//! has to print.

use crate::digest::Digest;
use crate::frame::Answer;
use crate::records::{Records, title};
use jamtrack_rs::boost_tracker::boost_tracker::inside::Settings;

/// What a cell of a list of indices holds before the call.
const LIST: usize = 7777;

/// What get_mh_dist_matrix multiplies by.
fn reciprocals(variances: &[f32; 4]) -> [f32; 4] {
    variances.map(|v| if v > 1e-10 { 1.0 / v } else { 1e10 })
}

/// An accepted frame.
pub struct Boosts<'a> {
    pub name: String,
    pub settings: &'a Settings,
    pub answer: &'a Answer,
    /// Of the boxes, and of the tracks that were held before it.
    pub labels: [&'a [u8]; 2],
}

impl Boosts<'_> {
    /// Corners of the boxes, of the retained ones, their scores, corners of the tracks, confidences, states, reciprocals.
    fn lists(&self) -> [Vec<f32>; 7] {
        let s = &self.answer.stages;
        let of_retained: Vec<[f32; 4]> = s.retained.iter().map(|&k| s.corners[k]).collect();
        [
            s.corners.concat(),
            of_retained.concat(),
            s.retained.iter().map(|&k| s.scores[2][k]).collect(),
            s.tracks.concat(),
            s.confidences.clone(),
            s.states.concat(),
            s.variances.iter().flat_map(reciprocals).collect(),
        ]
    }

    fn words(&self, ends: &[usize]) -> Vec<u64> {
        let s = &self.answer.stages;
        let [det, iou, l1, l2, l3, coef, _, _, flags] = self.settings.words();
        let [boxes, tracks, kept] = [s.corners.len(), s.tracks.len(), s.retained.len()];
        let cells = [boxes * tracks, kept * tracks, 0, 0, 0];
        let sides = [boxes, tracks, kept];
        let numbers = sides.iter().chain(ends).chain(&cells).map(|&k| k as u64);
        [1, flags, det, iou, l1, l2, l3, coef, s.frames].into_iter().chain(numbers).collect()
    }

    pub fn record(&self, records: &mut Records) {
        let s = &self.answer.stages;
        let lists = self.lists();
        let mut end = 0;
        let ends = lists.each_ref().map(|list| {
            end += list.len();
            end
        });
        let of_retained: Vec<u8> = s.retained.iter().map(|&k| self.labels[0][k]).collect();
        records.words(&self.words(&ends));
        records.words(&s.times);
        lists.iter().for_each(|list| records.floats(list));
        [self.labels[0], self.labels[1], &of_retained].iter().for_each(|labels| records.bytes(labels));
        records.title(&self.name);
        records.floats(&s.scores[0]);
    }

    /// Scores after DLO and after DUO, the retained boxes; their distances; counts and lists of their pairs.
    pub fn line(&self) -> String {
        let s = &self.answer.stages;
        let [dlo, duo] = [1, 2].map(|k| Digest::new().floats(&s.scores[k]).0);
        let (kept, distances) = (Digest::new().numbers(&s.retained).0, Digest::new().floats(&s.distances).0);
        let counts = [s.pairs.len(), s.unmatched_boxes.len(), s.unmatched_tracks.len()];
        let (first, second): (Vec<usize>, Vec<usize>) = s.pairs.iter().copied().unzip();
        let padded = |list: &[usize]| [list, &vec![LIST; 255 - list.len()]].concat();
        let all = [&first, &second, &s.unmatched_boxes, &s.unmatched_tracks].map(|list| padded(list)).concat();
        let counts: String = counts.iter().map(|k| format!(" {k}")).collect();
        format!(
            "{} | {dlo:016x} {duo:016x} {} {kept:016x} | {distances:016x}{counts} {} {} {:016x}",
            title(&self.name),
            s.retained.len(),
            self.answer.turns,
            self.answer.scans,
            Digest::new().numbers(&all).0,
        )
    }
}
