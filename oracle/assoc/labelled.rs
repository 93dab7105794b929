//! The calls of crates/assoc_vectors for labels: of each labelling at thresholds from 0.3 down to a NaN, and those that are
//! turned down for their labels.

use crate::{Group, Lists};
use oracle::inputs::{CROWD, KINDS, LABELLINGS};

const SIDES: [(usize, usize); 5] = [(3, 5), (7, 7), (12, 9), (20, 20), (64, 48)];

/// Kinds of boxes with costs above 0, ties, NaN costs and any bit patterns; `apart` takes the direct path.
const OF_BOXES: [usize; 7] = [0, 1, 2, 3, 4, 5, 8];

/// At 0 and below an unlike IoU is at least the threshold, and below 0 an unlike cost above it; no float is at least a NaN.
const THRESHOLDS: [f32; 5] = [0.3, 0.0, -1.0, f32::NEG_INFINITY, f32::NAN];

fn accepted(lists: &mut Lists) {
    let each = |n: usize| (0..n).flat_map(|a| (0..5).map(move |b| (a, b)));
    for (kind, (boxes, tracks)) in OF_BOXES.iter().flat_map(|&kind| SIDES.map(|sides| (kind, sides))) {
        let group = Group { kind, boxes, tracks };
        for (labelling, threshold) in each(LABELLINGS.len()) {
            // a call of seven, so that each kind has each labelling and each threshold
            let number = 3 * labelling + 5 * threshold + boxes;
            if number % 7 == kind % 7 {
                let name = format!("{} {} {}", KINDS[kind], LABELLINGS[labelling], THRESHOLDS[threshold]);
                let call = group.association(number % 8, labelling);
                group.associated(lists, &name, THRESHOLDS[threshold], &[call]);
            }
        }
    }
}

/// Two boxes and three tracks, or none of one side, with these labels; one place less in the first list, or none.
fn refused(lists: &mut Lists, [boxes, tracks]: [usize; 2], labels: [&[u8]; 2], short: bool) {
    let group = Group { kind: CROWD, boxes, tracks };
    let mut call = group.association(7, 0);
    call.labels = labels.map(|labels| labels.to_vec());
    call.lengths[5] = if short { 0 } else { call.lengths[5] };
    group.associated(lists, "labels", 0.3, &[call]);
}

fn all_refused(lists: &mut Lists) {
    let (two, three): (&[u8], &[u8]) = (&[1, 2], &[1, 2, 3]);
    let mut refused = |sides, labels, short| refused(lists, sides, labels, short);
    // 32
    refused([2, 3], [&[1], three], false);
    refused([2, 3], [three, three], false);
    refused([2, 3], [two, two], false);
    refused([2, 3], [two, &[1, 2, 3, 1]], false);
    refused([0, 3], [&[1], three], false);
    refused([2, 0], [two, &[1]], false);
    // 34
    refused([2, 3], [&[0, 1], three], false);
    refused([2, 3], [&[1, 4], three], false);
    refused([2, 3], [&[1, 255], three], false);
    refused([2, 3], [two, &[1, 2, 0]], false);
    refused([2, 3], [two, &[4, 2, 1]], false);
    refused([2, 3], [&[0, 0], &[0, 0, 0]], false);
    refused([0, 3], [&[], &[1, 2, 4]], false);
    refused([2, 0], [&[0, 1], &[]], false);
    // others first: 31, 32, 33
    refused([256, 3], [&[0; 256], three], false);
    refused([2, 3], [&[0], three], false);
    refused([2, 3], [two, &[4, 4]], false);
    refused([2, 3], [&[0, 1], three], true);
    refused([2, 3], [two, &[1, 2, 9]], true);
}

pub fn all(lists: &mut Lists) {
    accepted(lists);
    all_refused(lists);
}
