//! The stages of a frame, as stages.list and stages_assoc.list have them noted down: what the boosts are given, the scores
//! after each, the boxes that are retained, the pairs, and what becomes of each box.

use crate::boost_tracker::assoc::AssignmentResult;
use crate::boost_tracker::strack::KalmanBoxTracker;
use nalgebra::DMatrix;
use std::cell::RefCell;

/// A pair that the assignment or the direct path proposed.
#[derive(Clone, Copy)]
pub struct Proposed {
    /// A retained box, and a track.
    pub detection: usize,
    pub track: usize,
    pub iou: f32,
    pub stands: bool,
}

#[derive(Clone, Default)]
pub struct Stages {
    pub frames: u64,
    /// Corners of the boxes.
    pub corners: Vec<[f32; 4]>,
    /// The scores before the boosts, after DLO, and after DUO.
    pub scores: Vec<Vec<f32>>,
    /// Of the tracks: ids, corners, confidences, times since update, states x, y, h, r, and their variances.
    pub ids: Vec<u64>,
    pub tracks: Vec<[f32; 4]>,
    pub confidences: Vec<f32>,
    pub times: Vec<u64>,
    pub states: Vec<[f32; 4]>,
    pub variances: Vec<[f32; 4]>,
    /// Which boxes are retained, their distances to the tracks, and their pairs with them.
    pub retained: Vec<usize>,
    pub distances: Vec<f32>,
    pub pairs: Vec<(usize, usize)>,
    pub unmatched_boxes: Vec<usize>,
    pub unmatched_tracks: Vec<usize>,
    pub proposed: Vec<Proposed>,
    /// A retained box, and the id of the track that was corrected with it, or started from it.
    pub matched: Vec<(usize, u64)>,
    pub started: Vec<(usize, u64)>,
}

thread_local! {
    static NOTED: RefCell<Stages> = RefCell::default();
}

fn scores(dets: &[[f32; 5]]) -> Vec<f32> {
    dets.iter().map(|d| d[4]).collect()
}

pub fn begun(tracks: &[KalmanBoxTracker], frames: usize, dets: &[[f32; 5]], trks: &[[f32; 4]], confs: &[f32]) {
    let four = |s: &[f32]| [s[0], s[1], s[2], s[3]];
    let noted = Stages {
        frames: frames as u64,
        corners: dets.iter().map(|d| [d[0], d[1], d[2], d[3]]).collect(),
        scores: vec![scores(dets)],
        ids: tracks.iter().map(|t| t.id() as u64).collect(),
        tracks: trks.to_vec(),
        confidences: confs.to_vec(),
        times: tracks.iter().map(|t| t.time_since_update() as u64).collect(),
        states: tracks.iter().map(|t| four(&t.get_kf_state())).collect(),
        variances: tracks.iter().map(|t| four(&t.get_kf_covariance_diag())).collect(),
        ..Stages::default()
    };
    NOTED.replace(noted);
}

pub fn boosted(dets: &[[f32; 5]]) {
    NOTED.with_borrow_mut(|noted| noted.scores.push(scores(dets)));
}

pub fn paired(retained: &[usize], distances: &DMatrix<f32>, result: &AssignmentResult) {
    NOTED.with_borrow_mut(|noted| {
        noted.retained = retained.to_vec();
        let (rows, columns) = (distances.nrows(), distances.ncols());
        noted.distances = (0..rows * columns).map(|k| distances[(k / columns, k % columns)]).collect();
        noted.pairs = result.matches.clone();
        noted.unmatched_boxes = result.unmatched_detections.clone();
        noted.unmatched_tracks = result.unmatched_tracks.clone();
    });
}

/// Nothing is noted down of a call that is no frame's.
fn of_frame(note: impl FnOnce(&mut Stages)) {
    NOTED.with_borrow_mut(|noted| {
        if noted.frames > 0 {
            note(noted);
        }
    });
}

pub fn judged(detection: usize, track: usize, iou: f32, stands: bool) {
    of_frame(|noted| noted.proposed.push(Proposed { detection, track, iou, stands }));
}

pub fn matched(detection: usize, id: usize) {
    of_frame(|noted| noted.matched.push((detection, id as u64)));
}

pub fn started(detection: usize, id: usize) {
    of_frame(|noted| noted.started.push((detection, id as u64)));
}

/// What was noted down of the last frame.
pub fn take() -> Stages {
    NOTED.take()
}
