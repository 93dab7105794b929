//! What include/bedside.h declares, and a safe function over each declaration that takes pointers. All unsafe
//! code of the crate is in this file; a test holds types and declarations to the header.

/// A position with its speed and their covariances (rows: a b, c d): one of the four pairs that the filter of a
/// track consists of.
#[derive(Clone, Copy, Debug, PartialEq)]
#[repr(C)]
pub struct Pair {
    /// The position.
    pub p: f32,
    /// Its speed, a frame.
    pub v: f32,
    /// The covariance of the position.
    pub a: f32,
    /// Of position and speed.
    pub b: f32,
    /// Of speed and position; it can differ from `b` in the last bit.
    pub c: f32,
    /// Of the speed.
    pub d: f32,
}

#[derive(Clone, Copy)]
#[repr(C)]
pub struct Corrected {
    pub refusal: u32,
    pub pair: Pair,
}

#[derive(Clone, Copy)]
#[repr(C)]
pub struct LapjvAnswer {
    pub refusal: u32,
    pub turns: u64,
    pub scans: u64,
}

/// What a box and a track have in common.
#[derive(Clone, Copy, Debug, PartialEq)]
#[repr(C)]
pub struct OverlapAreas {
    /// The area that they share: what is divided in a cell of `iou_batch`.
    pub intersection: f32,
    /// The area of their union: what it is divided by, also where that is not above 0 and nothing is divided.
    pub union_area: f32,
    /// The cell: 0 unless the union is above 0.
    pub ratio: f32,
}

#[derive(Clone, Copy)]
#[repr(C)]
pub struct Matched {
    pub refusal: u32,
    pub pairs: u64,
    pub turns: u64,
    pub scans: u64,
}

#[derive(Clone, Copy)]
#[repr(C)]
pub struct Assignment {
    pub refusal: u32,
    pub pairs: u64,
    pub unmatched_detections: u64,
    pub unmatched_tracks: u64,
    pub turns: u64,
    pub scans: u64,
}

#[derive(Clone, Copy)]
#[repr(C)]
pub struct AssociateParams {
    pub iou_threshold: f32,
    pub lambda_iou: f32,
    pub lambda_mhd: f32,
    pub lambda_shape: f32,
    pub use_shape_similarity_correction: bool,
    pub has_mahalanobis: bool,
    pub has_confidence: bool,
}

#[derive(Clone, Copy, Debug, PartialEq)]
#[repr(C)]
pub struct Settings {
    pub det_thresh: f32,
    pub iou_threshold: f32,
    pub lambda_iou: f32,
    pub lambda_mhd: f32,
    pub lambda_shape: f32,
    pub dlo_boost_coef: f32,
    pub max_age: u64,
    pub min_hits: u64,
    pub use_dlo_boost: bool,
    pub use_duo_boost: bool,
    pub use_rich_similarity: bool,
    pub use_shape_similarity_correction: bool,
    pub use_soft_boost: bool,
    pub use_varying_threshold: bool,
    pub cap_confidence: bool,
}

#[derive(Clone, Copy, Debug, Default, PartialEq, Eq)]
#[repr(C)]
pub struct State {
    pub count: u64,
    pub last_id: u64,
    pub frame_count: u64,
}

#[derive(Clone, Copy)]
#[repr(C)]
pub struct UpdateAnswer {
    pub refusal: u32,
    pub index: u64,
    pub state: State,
    pub emitted: u64,
    pub turns: u64,
    pub scans: u64,
}

#[derive(Clone, Copy)]
#[repr(C)]
pub struct Explanation {
    pub refusal: u32,
    pub index: u64,
    pub fate: u32,
    pub id: u64,
    pub score: f32,
    pub score_dlo: f32,
    pub score_duo: f32,
    pub paired_id: u64,
    pub iou: f32,
    pub intersection: f32,
    pub union_area: f32,
}

#[derive(Clone, Copy)]
#[repr(C)]
pub struct ForgetAnswer {
    pub refusal: u32,
    pub state: State,
}

#[derive(Clone, Copy)]
#[repr(C)]
pub struct MotAnswer {
    pub refusal: u32,
    pub frame: u32,
}

// SAFETY: the declarations are the header's, as the test below sees. The safe ones take and give values alone,
// and the library is proved to accept every value.
unsafe extern "C" {
    pub safe fn bedside_max(a: f32, b: f32) -> f32;
    pub safe fn bedside_min(a: f32, b: f32) -> f32;
    pub safe fn bedside_sqrt(x: f32) -> f32;
    pub safe fn bedside_powi(c: f32, e: i32) -> f32;
    pub safe fn bedside_powf_1_5(m: f32) -> f32;
    pub safe fn bedside_exp(a: f32) -> f32;
    pub safe fn bedside_pair_new(z: f32) -> Pair;
    pub safe fn bedside_pair_predict(pair: Pair) -> Pair;
    pub safe fn bedside_pair_correct(pair: Pair, z: f32, r: f32) -> Corrected;
    unsafe fn bedside_convert_bbox_to_z(bbox: *const f32, z: *mut f32);
    unsafe fn bedside_convert_z_to_bbox(z: *const f32, bbox: *mut f32);
    pub safe fn bedside_confidence(age: u64, time_since_update: u64, coef: f32) -> f32;
    unsafe fn bedside_lapjv(
        n: usize, cost: *const f64, cost_len: usize, x: *mut usize, x_len: usize, y: *mut usize, y_len: usize,
    ) -> LapjvAnswer;
    unsafe fn bedside_overlap(detection: *const f32, track: *const f32) -> OverlapAreas;
    unsafe fn bedside_iou_batch(
        boxes: usize, tracks: usize, detections: *const f32, detections_len: usize, corners: *const f32,
        corners_len: usize, out: *mut f32, out_len: usize,
    ) -> u32;
    unsafe fn bedside_soft_biou_batch(
        boxes: usize, tracks: usize, detections: *const f32, detections_len: usize, corners: *const f32,
        corners_len: usize, track_confidences: *const f32, track_confidences_len: usize, out: *mut f32,
        out_len: usize,
    ) -> u32;
    unsafe fn bedside_shape_similarity_v1(
        boxes: usize, tracks: usize, detections: *const f32, detections_len: usize, corners: *const f32,
        corners_len: usize, out: *mut f32, out_len: usize,
    ) -> u32;
    unsafe fn bedside_shape_similarity_v2(
        boxes: usize, tracks: usize, detections: *const f32, detections_len: usize, corners: *const f32,
        corners_len: usize, out: *mut f32, out_len: usize,
    ) -> u32;
    unsafe fn bedside_mh_dist_similarity(
        boxes: usize, tracks: usize, distance: *const f32, distance_len: usize, softmax_temp: f32,
        out: *mut f32, out_len: usize,
    ) -> u32;
    unsafe fn bedside_match_detections(
        boxes: usize, tracks: usize, cost: *const f32, cost_len: usize, threshold: f32,
        pair_boxes: *mut usize, pair_boxes_len: usize, pair_tracks: *mut usize, pair_tracks_len: usize,
        work: *mut f64, work_len: usize,
    ) -> Matched;
    unsafe fn bedside_linear_assignment(
        boxes: usize, tracks: usize, iou: *const f32, iou_len: usize, cost: *const f32, cost_len: usize,
        threshold: f32, pair_boxes: *mut usize, pair_boxes_len: usize, pair_tracks: *mut usize,
        pair_tracks_len: usize, unmatched_detections: *mut usize, unmatched_detections_len: usize,
        unmatched_tracks: *mut usize, unmatched_tracks_len: usize, work: *mut f64, work_len: usize,
    ) -> Assignment;
    unsafe fn bedside_associate(
        params: AssociateParams, boxes: usize, tracks: usize, detections: *const f32, detections_len: usize,
        corners: *const f32, corners_len: usize, mahalanobis: *const f32, mahalanobis_len: usize,
        track_confidence: *const f32, track_confidence_len: usize, detection_confidence: *const f32,
        detection_confidence_len: usize, detection_labels: *const u8, detection_labels_len: usize,
        track_labels: *const u8, track_labels_len: usize, pair_boxes: *mut usize, pair_boxes_len: usize,
        pair_tracks: *mut usize, pair_tracks_len: usize, unmatched_detections: *mut usize,
        unmatched_detections_len: usize, unmatched_tracks: *mut usize, unmatched_tracks_len: usize,
        work64: *mut f64, work64_len: usize, work32: *mut f32, work32_len: usize,
    ) -> Assignment;
    pub safe fn bedside_settings_new(
        det_thresh: f32, iou_threshold: f32, max_age: u64, min_hits: u64,
    ) -> Settings;
    unsafe fn bedside_update(
        settings: Settings, state: State, floats: *mut f32, floats_len: usize, counters: *mut u64,
        counters_len: usize, labels: *mut u8, labels_len: usize, boxes: *const f32, boxes_len: usize,
        box_labels: *const u8, box_labels_len: usize, out: *mut u8, out_len: usize, work64: *mut f64,
        work64_len: usize, work32: *mut f32, work32_len: usize,
    ) -> UpdateAnswer;
    unsafe fn bedside_why(
        settings: Settings, state: State, floats: *const f32, floats_len: usize, counters: *const u64,
        counters_len: usize, labels: *const u8, labels_len: usize, boxes: *const f32, boxes_len: usize,
        box_labels: *const u8, box_labels_len: usize, out: *const u8, out_len: usize, work64: *mut f64,
        work64_len: usize, work32: *mut f32, work32_len: usize, index: usize,
    ) -> Explanation;
    unsafe fn bedside_forget(
        state: State, floats: *mut f32, floats_len: usize, counters: *mut u64, counters_len: usize,
        labels: *mut u8, labels_len: usize, id: u64,
    ) -> ForgetAnswer;
    unsafe fn bedside_forget_set(
        state: State, floats: *mut f32, floats_len: usize, counters: *mut u64, counters_len: usize,
        labels: *mut u8, labels_len: usize, ids: *const u64, ids_len: usize,
    ) -> ForgetAnswer;
    unsafe fn bedside_mot_line(
        line: *const u8, line_len: usize, previous: u32, out: *mut u8, out_len: usize,
    ) -> MotAnswer;
}

pub fn convert_bbox_to_z(bbox: &[f32; 4]) -> [f32; 4] {
    let mut z = [0.0; 4];
    // SAFETY: four floats are read and four are written.
    unsafe { bedside_convert_bbox_to_z(bbox.as_ptr(), z.as_mut_ptr()) };
    z
}

pub fn convert_z_to_bbox(z: &[f32; 4]) -> [f32; 4] {
    let mut bbox = [0.0; 4];
    // SAFETY: four floats are read and four are written.
    unsafe { bedside_convert_z_to_bbox(z.as_ptr(), bbox.as_mut_ptr()) };
    bbox
}

pub fn overlap(detection: &[f32; 4], track: &[f32; 4]) -> OverlapAreas {
    // SAFETY: four floats are read from each.
    unsafe { bedside_overlap(detection.as_ptr(), track.as_ptr()) }
}

// Below, a slice goes as its pointer and its length. It is aligned and, where the library writes to it, it is
// borrowed for that, so that it overlaps no other; the library is proved to touch nothing else, and to accept
// every length and every value.

pub fn lapjv(n: usize, cost: &[f64], x: &mut [usize], y: &mut [usize]) -> LapjvAnswer {
    // SAFETY: each slice goes with its own length.
    unsafe { bedside_lapjv(n, cost.as_ptr(), cost.len(), x.as_mut_ptr(), x.len(), y.as_mut_ptr(), y.len()) }
}

pub fn mot_line(line: &[u8], previous: u32, out: &mut [u8]) -> MotAnswer {
    // SAFETY: each slice goes with its own length.
    unsafe { bedside_mot_line(line.as_ptr(), line.len(), previous, out.as_mut_ptr(), out.len()) }
}

/// Boxes and tracks by their corners; the sides are their numbers.
#[derive(Clone, Copy)]
pub struct Sides<'a> {
    pub detections: &'a [[f32; 4]],
    pub tracks: &'a [[f32; 4]],
}

pub fn iou_batch(sides: Sides<'_>, out: &mut [f32]) -> u32 {
    let (boxes, tracks) = (sides.detections.len(), sides.tracks.len());
    let (d, t) = (sides.detections.as_flattened(), sides.tracks.as_flattened());
    let (o, o_len) = (out.as_mut_ptr(), out.len());
    // SAFETY: each slice goes with its own length.
    unsafe { bedside_iou_batch(boxes, tracks, d.as_ptr(), d.len(), t.as_ptr(), t.len(), o, o_len) }
}

pub fn soft_biou_batch(sides: Sides<'_>, track_confidences: &[f32], out: &mut [f32]) -> u32 {
    let (boxes, tracks) = (sides.detections.len(), sides.tracks.len());
    let (d, t) = (sides.detections.as_flattened(), sides.tracks.as_flattened());
    let (c, c_len) = (track_confidences.as_ptr(), track_confidences.len());
    let (o, o_len) = (out.as_mut_ptr(), out.len());
    // SAFETY: each slice goes with its own length.
    unsafe {
        bedside_soft_biou_batch(boxes, tracks, d.as_ptr(), d.len(), t.as_ptr(), t.len(), c, c_len, o, o_len)
    }
}

pub fn shape_similarity_v1(sides: Sides<'_>, out: &mut [f32]) -> u32 {
    let (boxes, tracks) = (sides.detections.len(), sides.tracks.len());
    let (d, t) = (sides.detections.as_flattened(), sides.tracks.as_flattened());
    let (o, o_len) = (out.as_mut_ptr(), out.len());
    // SAFETY: each slice goes with its own length.
    unsafe { bedside_shape_similarity_v1(boxes, tracks, d.as_ptr(), d.len(), t.as_ptr(), t.len(), o, o_len) }
}

pub fn shape_similarity_v2(sides: Sides<'_>, out: &mut [f32]) -> u32 {
    let (boxes, tracks) = (sides.detections.len(), sides.tracks.len());
    let (d, t) = (sides.detections.as_flattened(), sides.tracks.as_flattened());
    let (o, o_len) = (out.as_mut_ptr(), out.len());
    // SAFETY: each slice goes with its own length.
    unsafe { bedside_shape_similarity_v2(boxes, tracks, d.as_ptr(), d.len(), t.as_ptr(), t.len(), o, o_len) }
}

pub fn mh_dist_similarity(
    boxes: usize, tracks: usize, distance: &[f32], softmax_temp: f32, out: &mut [f32],
) -> u32 {
    let (d, d_len) = (distance.as_ptr(), distance.len());
    // SAFETY: each slice goes with its own length.
    unsafe { bedside_mh_dist_similarity(boxes, tracks, d, d_len, softmax_temp, out.as_mut_ptr(), out.len()) }
}

/// What is lent to a pairing: its lists, and its work slices.
pub struct Lists<'a> {
    pub pair_boxes: &'a mut [usize],
    pub pair_tracks: &'a mut [usize],
    pub unmatched_detections: &'a mut [usize],
    pub unmatched_tracks: &'a mut [usize],
    pub work64: &'a mut [f64],
    pub work32: &'a mut [f32],
}

pub fn match_detections(
    boxes: usize, tracks: usize, cost: &[f32], threshold: f32, lists: Lists<'_>,
) -> Matched {
    let Lists { pair_boxes: p, pair_tracks: q, work64: w, .. } = lists;
    // SAFETY: each slice goes with its own length.
    unsafe {
        bedside_match_detections(
            boxes,
            tracks,
            cost.as_ptr(),
            cost.len(),
            threshold,
            p.as_mut_ptr(),
            p.len(),
            q.as_mut_ptr(),
            q.len(),
            w.as_mut_ptr(),
            w.len(),
        )
    }
}

pub fn linear_assignment(
    boxes: usize, tracks: usize, iou: &[f32], cost: &[f32], threshold: f32, lists: Lists<'_>,
) -> Assignment {
    let Lists { pair_boxes: p, pair_tracks: q, unmatched_detections: u, unmatched_tracks: v, .. } = lists;
    let w = lists.work64;
    // SAFETY: each slice goes with its own length.
    unsafe {
        bedside_linear_assignment(
            boxes,
            tracks,
            iou.as_ptr(),
            iou.len(),
            cost.as_ptr(),
            cost.len(),
            threshold,
            p.as_mut_ptr(),
            p.len(),
            q.as_mut_ptr(),
            q.len(),
            u.as_mut_ptr(),
            u.len(),
            v.as_mut_ptr(),
            v.len(),
            w.as_mut_ptr(),
            w.len(),
        )
    }
}

/// What an association is made from.
#[derive(Clone, Copy)]
pub struct Association<'a> {
    pub params: AssociateParams,
    pub sides: Sides<'a>,
    pub mahalanobis: &'a [f32],
    pub track_confidence: &'a [f32],
    pub detection_confidence: &'a [f32],
    pub detection_labels: &'a [u8],
    pub track_labels: &'a [u8],
}

pub fn associate(of: Association<'_>, lists: Lists<'_>) -> Assignment {
    let (d, t) = (of.sides.detections.as_flattened(), of.sides.tracks.as_flattened());
    let (m, c, e) = (of.mahalanobis, of.track_confidence, of.detection_confidence);
    let (k, l) = (of.detection_labels, of.track_labels);
    let Lists { pair_boxes: p, pair_tracks: q, unmatched_detections: u, unmatched_tracks: v, .. } = lists;
    let (w, f) = (lists.work64, lists.work32);
    // SAFETY: each slice goes with its own length.
    unsafe {
        bedside_associate(
            of.params,
            of.sides.detections.len(),
            of.sides.tracks.len(),
            d.as_ptr(),
            d.len(),
            t.as_ptr(),
            t.len(),
            m.as_ptr(),
            m.len(),
            c.as_ptr(),
            c.len(),
            e.as_ptr(),
            e.len(),
            k.as_ptr(),
            k.len(),
            l.as_ptr(),
            l.len(),
            p.as_mut_ptr(),
            p.len(),
            q.as_mut_ptr(),
            q.len(),
            u.as_mut_ptr(),
            u.len(),
            v.as_mut_ptr(),
            v.len(),
            w.as_mut_ptr(),
            w.len(),
            f.as_mut_ptr(),
            f.len(),
        )
    }
}

/// What is lent to a frame: the table, the boxes, the output, and the work slices.
pub struct Lent<'a> {
    pub floats: &'a mut [f32],
    pub counters: &'a mut [u64],
    pub labels: &'a mut [u8],
    pub boxes: &'a [f32],
    pub box_labels: &'a [u8],
    pub out: &'a mut [u8],
    pub work64: &'a mut [f64],
    pub work32: &'a mut [f32],
}

pub fn update(settings: Settings, state: State, lent: Lent<'_>) -> UpdateAnswer {
    let Lent { floats: f, counters: c, labels: l, boxes: b, box_labels: k, .. } = lent;
    let (o, w, v) = (lent.out, lent.work64, lent.work32);
    // SAFETY: each slice goes with its own length.
    unsafe {
        bedside_update(
            settings,
            state,
            f.as_mut_ptr(),
            f.len(),
            c.as_mut_ptr(),
            c.len(),
            l.as_mut_ptr(),
            l.len(),
            b.as_ptr(),
            b.len(),
            k.as_ptr(),
            k.len(),
            o.as_mut_ptr(),
            o.len(),
            w.as_mut_ptr(),
            w.len(),
            v.as_mut_ptr(),
            v.len(),
        )
    }
}

/// The table and the output are read alone.
pub fn why(settings: Settings, state: State, lent: Lent<'_>, index: usize) -> Explanation {
    let Lent { floats: f, counters: c, labels: l, boxes: b, box_labels: k, .. } = lent;
    let (o, w, v) = (lent.out, lent.work64, lent.work32);
    // SAFETY: each slice goes with its own length.
    unsafe {
        bedside_why(
            settings,
            state,
            f.as_ptr(),
            f.len(),
            c.as_ptr(),
            c.len(),
            l.as_ptr(),
            l.len(),
            b.as_ptr(),
            b.len(),
            k.as_ptr(),
            k.len(),
            o.as_ptr(),
            o.len(),
            w.as_mut_ptr(),
            w.len(),
            v.as_mut_ptr(),
            v.len(),
            index,
        )
    }
}

/// The table of tracks.
pub struct Table<'a> {
    pub floats: &'a mut [f32],
    pub counters: &'a mut [u64],
    pub labels: &'a mut [u8],
}

pub fn forget(state: State, table: Table<'_>, id: u64) -> ForgetAnswer {
    let Table { floats: f, counters: c, labels: l } = table;
    // SAFETY: each slice goes with its own length.
    unsafe {
        bedside_forget(state, f.as_mut_ptr(), f.len(), c.as_mut_ptr(), c.len(), l.as_mut_ptr(), l.len(), id)
    }
}

pub fn forget_set(state: State, table: Table<'_>, ids: &[u64]) -> ForgetAnswer {
    let Table { floats: f, counters: c, labels: l } = table;
    // SAFETY: each slice goes with its own length.
    unsafe {
        bedside_forget_set(
            state,
            f.as_mut_ptr(),
            f.len(),
            c.as_mut_ptr(),
            c.len(),
            l.as_mut_ptr(),
            l.len(),
            ids.as_ptr(),
            ids.len(),
        )
    }
}

#[cfg(test)]
mod header;
