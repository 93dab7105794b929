//! The port, as include/bedside.h declares it.

use oracle::verdict::State;

#[repr(C)]
pub struct Lapjv {
    pub refusal: u32,
    pub turns: u64,
    pub scans: u64,
}

#[repr(C)]
pub struct Matched {
    pub refusal: u32,
    pub counts: [u64; 3],
}

#[repr(C)]
pub struct Assignment {
    pub refusal: u32,
    pub counts: [u64; 5],
}

/// The threshold and three weights; the corrected shape, distances, confidences.
#[repr(C)]
pub struct Params {
    pub floats: [f32; 4],
    pub uses: [bool; 3],
}

/// Intersection, union, ratio.
#[repr(C)]
pub struct OverlapAreas(pub [f32; 3]);

/// p, v, A, B, C, D
#[derive(Clone, Copy)]
#[repr(C)]
pub struct Pair(pub [f32; 6]);

#[repr(C)]
pub struct Corrected {
    pub refusal: u32,
    pub pair: Pair,
}

#[repr(C)]
pub struct Settings {
    /// det_thresh, iou_threshold, the lambdas, dlo_boost_coef
    pub floats: [f32; 6],
    pub max_age: u64,
    pub min_hits: u64,
    /// DLO, DUO, rich, corrected shape, soft, varying; and cap_confidence
    pub uses: [bool; 7],
}

#[repr(C)]
pub struct Updated {
    pub refusal: u32,
    pub index: u64,
    pub state: State,
    pub emitted: u64,
    pub turns: u64,
    pub scans: u64,
}

#[repr(C)]
pub struct Explanation {
    pub refusal: u32,
    pub index: u64,
    pub fate: u32,
    pub id: u64,
    /// As given, after DLO, after DUO.
    pub scores: [f32; 3],
    pub paired_id: u64,
    /// IoU, intersection, union.
    pub overlap: [f32; 3],
}

#[repr(C)]
pub struct Forgotten {
    pub refusal: u32,
    pub state: State,
}

#[repr(C)]
pub struct MotAnswer {
    pub refusal: u32,
    pub frame: u32,
}

type In = *const f32;
type Out = *mut f32;
type List = *mut usize;
pub type OfCorners = unsafe extern "C" fn(usize, usize, In, usize, In, usize, Out, usize) -> u32;

unsafe extern "C" {
    pub fn bedside_pair_new(z: f32) -> Pair;
    pub fn bedside_pair_predict(pair: Pair) -> Pair;
    pub fn bedside_pair_correct(pair: Pair, z: f32, r: f32) -> Corrected;
    pub fn bedside_convert_bbox_to_z(bbox: In, z: Out);
    pub fn bedside_convert_z_to_bbox(z: In, bbox: Out);
    pub fn bedside_confidence(age: u64, time_since_update: u64, coef: f32) -> f32;

    pub fn bedside_lapjv(
        n: usize, cost: *const f64, cost_len: usize, x: List, x_len: usize, y: List, y_len: usize,
    ) -> Lapjv;

    pub fn bedside_overlap(detection: In, track: In) -> OverlapAreas;
    pub fn bedside_iou_batch(b: usize, t: usize, d: In, dn: usize, c: In, cn: usize, out: Out, n: usize) -> u32;
    pub fn bedside_shape_similarity_v1(b: usize, t: usize, d: In, dn: usize, c: In, cn: usize, out: Out, n: usize)
    -> u32;
    pub fn bedside_shape_similarity_v2(b: usize, t: usize, d: In, dn: usize, c: In, cn: usize, out: Out, n: usize)
    -> u32;
    pub fn bedside_soft_biou_batch(
        boxes: usize, tracks: usize, detections: In, detections_len: usize, corners: In, corners_len: usize,
        confidences: In, confidences_len: usize, out: Out, out_len: usize,
    ) -> u32;
    pub fn bedside_mh_dist_similarity(
        boxes: usize, tracks: usize, distance: In, distance_len: usize, softmax_temp: f32, out: Out, out_len: usize,
    ) -> u32;
    pub fn bedside_match_detections(
        boxes: usize, tracks: usize, cost: In, cost_len: usize, threshold: f32, pair_boxes: List,
        pair_boxes_len: usize, pair_tracks: List, pair_tracks_len: usize, work: *mut f64, work_len: usize,
    ) -> Matched;
    pub fn bedside_linear_assignment(
        boxes: usize, tracks: usize, iou: In, iou_len: usize, cost: In, cost_len: usize, threshold: f32,
        pair_boxes: List, pair_boxes_len: usize, pair_tracks: List, pair_tracks_len: usize,
        unmatched_detections: List, unmatched_detections_len: usize, unmatched_tracks: List,
        unmatched_tracks_len: usize, work: *mut f64, work_len: usize,
    ) -> Assignment;
    pub fn bedside_associate(
        params: Params, boxes: usize, tracks: usize, detections: In, detections_len: usize, corners: In,
        corners_len: usize, mahalanobis: In, mahalanobis_len: usize, track_confidence: In,
        track_confidence_len: usize, detection_confidence: In, detection_confidence_len: usize,
        detection_labels: *const u8, detection_labels_len: usize, track_labels: *const u8, track_labels_len: usize,
        pair_boxes: List, pair_boxes_len: usize, pair_tracks: List, pair_tracks_len: usize, unmatched_detections: List,
        unmatched_detections_len: usize, unmatched_tracks: List, unmatched_tracks_len: usize, work64: *mut f64,
        work64_len: usize, work32: Out, work32_len: usize,
    ) -> Assignment;

    pub fn bedside_update(
        settings: Settings, state: State, floats: Out, floats_len: usize, counters: *mut u64, counters_len: usize,
        labels: *mut u8, labels_len: usize, boxes: In, boxes_len: usize, box_labels: *const u8, box_labels_len: usize,
        out: *mut u8, out_len: usize, work64: *mut f64, work64_len: usize, work32: Out, work32_len: usize,
    ) -> Updated;
    pub fn bedside_why(
        settings: Settings, state: State, floats: In, floats_len: usize, counters: *const u64, counters_len: usize,
        labels: *const u8, labels_len: usize, boxes: In, boxes_len: usize, box_labels: *const u8, box_labels_len: usize,
        out: *const u8, out_len: usize, work64: *mut f64, work64_len: usize, work32: Out, work32_len: usize, index: usize,
    ) -> Explanation;
    pub fn bedside_forget(
        state: State, floats: Out, floats_len: usize, counters: *mut u64, counters_len: usize, labels: *mut u8,
        labels_len: usize, id: u64,
    ) -> Forgotten;
    pub fn bedside_forget_set(
        state: State, floats: Out, floats_len: usize, counters: *mut u64, counters_len: usize, labels: *mut u8,
        labels_len: usize, ids: *const u64, ids_len: usize,
    ) -> Forgotten;

    pub fn bedside_mot_line(
        line: *const u8, line_len: usize, previous: u32, out: *mut u8, out_len: usize,
    ) -> MotAnswer;
}
