//! What the published assoc.rs has of one box and one track.

use jamtrack_rs::areas;
use jamtrack_rs::boost_tracker::assoc;

/// Numerator, denominator and value of their cell of `iou_batch`.
pub fn overlap(detection: [f32; 4], track: [f32; 4]) -> [f32; 3] {
    let cell = assoc::iou_batch(&[detection], &[track])[(0, 0)];
    let [wh, union] = areas::take();
    [wh, union, cell]
}
