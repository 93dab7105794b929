//! The port's pairing, from libbedside.a.

use crate::Case;

#[repr(C)]
struct Matched {
    refusal: u32,
    pairs: u64,
    turns: u64,
    scans: u64,
}

#[repr(C)]
struct Assignment {
    refusal: u32,
    pairs: u64,
    detections: u64,
    tracks: u64,
    turns: u64,
    scans: u64,
}

#[repr(C)]
struct AssociateParams {
    iou_threshold: f32,
    lambda_iou: f32,
    lambda_mhd: f32,
    lambda_shape: f32,
    use_shape_similarity_correction: bool,
    has_mahalanobis: bool,
    has_confidence: bool,
}

type OfCorners = unsafe extern "C" fn(
    boxes: usize, tracks: usize, detections: *const f32, detections_len: usize, corners: *const f32, corners_len: usize,
    out: *mut f32, out_len: usize,
) -> u32;

#[link(name = "bedside", kind = "static")]
extern "C" {
    fn bedside_iou_batch(
        boxes: usize, tracks: usize, detections: *const f32, detections_len: usize, corners: *const f32,
        corners_len: usize, out: *mut f32, out_len: usize,
    ) -> u32;
    fn bedside_soft_biou_batch(
        boxes: usize, tracks: usize, detections: *const f32, detections_len: usize, corners: *const f32,
        corners_len: usize, track_confidences: *const f32, track_confidences_len: usize, out: *mut f32, out_len: usize,
    ) -> u32;
    fn bedside_shape_similarity_v1(
        boxes: usize, tracks: usize, detections: *const f32, detections_len: usize, corners: *const f32,
        corners_len: usize, out: *mut f32, out_len: usize,
    ) -> u32;
    fn bedside_shape_similarity_v2(
        boxes: usize, tracks: usize, detections: *const f32, detections_len: usize, corners: *const f32,
        corners_len: usize, out: *mut f32, out_len: usize,
    ) -> u32;
    fn bedside_mh_dist_similarity(
        boxes: usize, tracks: usize, distance: *const f32, distance_len: usize, softmax_temp: f32, out: *mut f32,
        out_len: usize,
    ) -> u32;
    fn bedside_match_detections(
        boxes: usize, tracks: usize, cost: *const f32, cost_len: usize, threshold: f32, pair_boxes: *mut usize,
        pair_boxes_len: usize, pair_tracks: *mut usize, pair_tracks_len: usize, work: *mut f64, work_len: usize,
    ) -> Matched;
    fn bedside_linear_assignment(
        boxes: usize, tracks: usize, iou: *const f32, iou_len: usize, cost: *const f32, cost_len: usize,
        threshold: f32, pair_boxes: *mut usize, pair_boxes_len: usize, pair_tracks: *mut usize, pair_tracks_len: usize,
        unmatched_detections: *mut usize, unmatched_detections_len: usize, unmatched_tracks: *mut usize,
        unmatched_tracks_len: usize, work: *mut f64, work_len: usize,
    ) -> Assignment;
    fn bedside_associate(
        params: AssociateParams, boxes: usize, tracks: usize, detections: *const f32, detections_len: usize,
        corners: *const f32, corners_len: usize, mahalanobis: *const f32, mahalanobis_len: usize,
        track_confidence: *const f32, track_confidence_len: usize, detection_confidence: *const f32,
        detection_confidence_len: usize, detection_labels: *const u8, detection_labels_len: usize,
        track_labels: *const u8, track_labels_len: usize, pair_boxes: *mut usize, pair_boxes_len: usize,
        pair_tracks: *mut usize, pair_tracks_len: usize, unmatched_detections: *mut usize,
        unmatched_detections_len: usize, unmatched_tracks: *mut usize, unmatched_tracks_len: usize, work64: *mut f64,
        work64_len: usize, work32: *mut f32, work32_len: usize,
    ) -> Assignment;
}

/// Room for results and work, lent to each call, and one label for all: the published file knows none.
pub struct Room {
    labels: [Vec<u8>; 2],
    pub out: Vec<f32>,
    pub pairs: [Vec<usize>; 2],
    pub unmatched: [Vec<usize>; 2],
    pub counts: [usize; 3],
    work64: Vec<f64>,
    work32: Vec<f32>,
}

impl Room {
    pub fn new(boxes: usize, tracks: usize) -> Room {
        let (few, n) = (boxes.min(tracks), boxes.max(tracks));
        Room {
            labels: [vec![1; boxes], vec![1; tracks]],
            out: vec![0.0; boxes * tracks],
            pairs: [vec![0; few], vec![0; few]],
            unmatched: [vec![0; boxes], vec![0; tracks]],
            counts: [0; 3],
            work64: vec![0.0; n * n],
            work32: vec![0.0; 4 * n * n],
        }
    }
}

// SAFETY, of each call: the functions are proved to touch no memory but what they are lent.
fn of_corners(call: OfCorners, case: &Case, room: &mut Room) {
    let (d, t) = (&case.flat_detections, &case.flat_tracks);
    let refusal = unsafe {
        call(
            case.boxes, case.tracks, d.as_ptr(), d.len(), t.as_ptr(), t.len(), room.out.as_mut_ptr(), room.out.len(),
        )
    };
    assert_eq!(refusal, 0);
}

pub fn iou_batch(case: &Case, room: &mut Room) {
    of_corners(bedside_iou_batch, case, room);
}

pub fn soft_biou_batch(case: &Case, room: &mut Room) {
    let (d, t, c) = (&case.flat_detections, &case.flat_tracks, &case.track_confidence);
    let refusal = unsafe {
        bedside_soft_biou_batch(
            case.boxes, case.tracks, d.as_ptr(), d.len(), t.as_ptr(), t.len(), c.as_ptr(), c.len(),
            room.out.as_mut_ptr(), room.out.len(),
        )
    };
    assert_eq!(refusal, 0);
}

pub fn shape_similarity_v1(case: &Case, room: &mut Room) {
    of_corners(bedside_shape_similarity_v1, case, room);
}

pub fn shape_similarity_v2(case: &Case, room: &mut Room) {
    of_corners(bedside_shape_similarity_v2, case, room);
}

pub fn mh_dist_similarity(case: &Case, room: &mut Room) {
    let d = &case.flat_distance;
    let refusal = unsafe {
        bedside_mh_dist_similarity(
            case.boxes, case.tracks, d.as_ptr(), d.len(), 1.0, room.out.as_mut_ptr(), room.out.len(),
        )
    };
    assert_eq!(refusal, 0);
}

fn match_costs(cost: &[f32], case: &Case, room: &mut Room) {
    let Room { pairs: [first, second], work64: work, .. } = room;
    let answer = unsafe {
        bedside_match_detections(
            case.boxes, case.tracks, cost.as_ptr(), cost.len(), 0.3, first.as_mut_ptr(), first.len(),
            second.as_mut_ptr(), second.len(), work.as_mut_ptr(), work.len(),
        )
    };
    assert_eq!(answer.refusal, 0, "after {} turns and {} scans", answer.turns, answer.scans);
    room.counts = [answer.pairs as usize, 0, 0];
}

pub fn match_directly(case: &Case, room: &mut Room) {
    match_costs(&case.flat_sparse, case, room);
}

pub fn match_by_lapjv(case: &Case, room: &mut Room) {
    match_costs(&case.flat_cost, case, room);
}

fn said(answer: Assignment, room: &mut Room) {
    assert_eq!(answer.refusal, 0, "after {} turns and {} scans", answer.turns, answer.scans);
    room.counts = [answer.pairs, answer.detections, answer.tracks].map(|k| k as usize);
}

pub fn linear_assignment(case: &Case, room: &mut Room) {
    let (iou, cost) = (&case.flat_sparse, &case.flat_cost);
    let Room { pairs: [first, second], unmatched: [left, right], work64: work, .. } = room;
    let answer = unsafe {
        bedside_linear_assignment(
            case.boxes, case.tracks, iou.as_ptr(), iou.len(), cost.as_ptr(), cost.len(), 0.3, first.as_mut_ptr(),
            first.len(), second.as_mut_ptr(), second.len(), left.as_mut_ptr(), left.len(), right.as_mut_ptr(),
            right.len(), work.as_mut_ptr(), work.len(),
        )
    };
    said(answer, room);
}

pub fn associate(case: &Case, room: &mut Room) {
    let (d, t, m) = (&case.flat_detections, &case.flat_tracks, &case.flat_distance);
    let (track, detection) = (&case.track_confidence, &case.detection_confidence);
    let Room { labels: [of_boxes, of_tracks], pairs: [first, second], unmatched: [left, right], work64, work32, .. } = room;
    let params = AssociateParams {
        iou_threshold: 0.3,
        lambda_iou: 0.5,
        lambda_mhd: 0.25,
        lambda_shape: 0.25,
        use_shape_similarity_correction: true,
        has_mahalanobis: true,
        has_confidence: true,
    };
    let answer = unsafe {
        bedside_associate(
            params, case.boxes, case.tracks, d.as_ptr(), d.len(), t.as_ptr(), t.len(), m.as_ptr(), m.len(),
            track.as_ptr(), track.len(), detection.as_ptr(), detection.len(), of_boxes.as_ptr(), of_boxes.len(),
            of_tracks.as_ptr(), of_tracks.len(), first.as_mut_ptr(), first.len(), second.as_mut_ptr(), second.len(),
            left.as_mut_ptr(), left.len(), right.as_mut_ptr(), right.len(), work64.as_mut_ptr(), work64.len(),
            work32.as_mut_ptr(), work32.len(),
        )
    };
    said(answer, room);
}
