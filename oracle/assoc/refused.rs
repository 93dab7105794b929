//! The calls of crates/assoc_vectors that are turned down: two boxes and three tracks, but for one length, or for a side
//! above 255.

use crate::{Association, Group, Lists};
use oracle::inputs::{CROWD, labels};

const NAME: &str = "refused";

fn group(boxes: usize, tracks: usize) -> Group {
    Group { kind: CROWD, boxes, tracks }
}

fn of_matrices(lists: &mut Lists, routine: usize) {
    let mut measured = |boxes, tracks, lengths| group(boxes, tracks).measured(lists, NAME, &[routine], lengths);
    measured(256, 3, [1024, 12, 3, 768]);
    measured(2, 256, [8, 1024, 256, 512]);
    measured(256, 256, [0, 0, 0, 0]);
    measured(4611686018427387904, 4, [0, 16, 4, 0]);
    measured(2, 3, [7, 12, 3, 6]);
    measured(2, 3, [9, 12, 3, 6]);
    measured(2, 3, [8, 11, 3, 6]);
    measured(2, 3, [8, 16, 3, 0]);
    measured(0, 3, [4, 12, 3, 0]);
    measured(2, 3, [8, 12, 3, 5]);
    measured(2, 3, [8, 12, 3, 0]);
}

fn of_similarity(lists: &mut Lists) {
    let mut measured = |boxes, lengths| group(boxes, 3).measured(lists, NAME, &[1], lengths);
    measured(2, [8, 12, 2, 6]);
    measured(2, [8, 12, 4, 5]);
    measured(0, [0, 12, 0, 0]);
    let mut softened = |boxes, tracks, lengths| group(boxes, tracks).softened(lists, NAME, lengths);
    softened(256, 3, [768, 768]);
    softened(3, 256, [768, 768]);
    softened(2, 3, [5, 6]);
    softened(2, 3, [7, 6]);
    softened(0, 3, [1, 0]);
    softened(2, 3, [6, 5]);
}

fn of_matching(lists: &mut Lists) {
    let mut matched = |boxes, tracks, lengths| group(boxes, tracks).matched(lists, NAME, lengths);
    matched(256, 3, [768, 3, 3, 65536]);
    matched(3, 256, [768, 3, 3, 65536]);
    matched(2, 3, [5, 2, 2, 9]);
    matched(2, 3, [7, 2, 2, 8]);
    matched(2, 3, [6, 1, 2, 9]);
    matched(2, 3, [6, 2, 1, 9]);
    matched(2, 3, [6, 2, 2, 8]);
    matched(0, 3, [0, 0, 0, 8]);
}

fn of_assignment(lists: &mut Lists) {
    let mut assigned = |boxes, tracks, lengths| group(boxes, tracks).assigned(lists, NAME, lengths);
    assigned(256, 3, [768, 768, 3, 3, 256, 3, 65536]);
    assigned(3, 256, [768, 768, 3, 3, 3, 256, 65536]);
    assigned(2, 3, [5, 6, 2, 2, 2, 3, 9]);
    assigned(2, 3, [6, 7, 2, 2, 2, 3, 8]);
    assigned(2, 3, [6, 6, 1, 2, 2, 3, 9]);
    assigned(2, 3, [6, 6, 2, 1, 2, 3, 9]);
    assigned(2, 3, [6, 6, 2, 2, 1, 3, 9]);
    assigned(2, 3, [6, 6, 2, 2, 2, 2, 9]);
    assigned(2, 3, [6, 6, 2, 2, 2, 3, 8]);
    assigned(3, 0, [0, 0, 0, 0, 3, 0, 8]);
}

fn of_association(lists: &mut Lists) {
    let mut associated = |boxes, tracks, flags, lengths| {
        let labels = [labels(0, CROWD, false, boxes), labels(0, CROWD, true, tracks)];
        group(boxes, tracks).associated(lists, NAME, 0.3, &[Association { flags, lengths, labels }]);
    };
    associated(256, 3, 7, [1024, 12, 768, 3, 256, 3, 3, 256, 3, 65536, 262144]);
    associated(2, 256, 0, [8, 1024, 0, 0, 0, 2, 2, 2, 256, 65536, 262144]);
    associated(2, 3, 0, [7, 12, 0, 0, 0, 2, 2, 2, 3, 9, 36]);
    associated(2, 3, 0, [8, 13, 0, 0, 0, 2, 2, 2, 3, 9, 36]);
    associated(2, 3, 1, [8, 12, 5, 0, 0, 2, 2, 2, 3, 9, 36]);
    associated(2, 3, 2, [8, 12, 0, 2, 2, 2, 2, 2, 3, 9, 36]);
    associated(2, 3, 2, [8, 12, 0, 3, 3, 2, 2, 2, 3, 9, 36]);
    associated(2, 3, 7, [8, 12, 6, 3, 2, 1, 2, 2, 3, 9, 36]);
    associated(2, 3, 7, [8, 12, 6, 3, 2, 2, 1, 2, 3, 9, 36]);
    associated(2, 3, 7, [8, 12, 6, 3, 2, 2, 2, 1, 3, 9, 36]);
    associated(2, 3, 7, [8, 12, 6, 3, 2, 2, 2, 2, 2, 9, 36]);
    associated(2, 3, 7, [8, 12, 6, 3, 2, 2, 2, 2, 3, 8, 36]);
    associated(2, 3, 7, [8, 12, 6, 3, 2, 2, 2, 2, 3, 9, 35]);
    associated(3, 0, 0, [12, 0, 0, 0, 0, 0, 0, 3, 0, 9, 35]);
    associated(0, 3, 3, [0, 12, 1, 3, 0, 0, 0, 0, 3, 9, 36]);
}

pub fn all(lists: &mut Lists) {
    (0..4).for_each(|routine| of_matrices(lists, routine));
    of_similarity(lists);
    of_matching(lists);
    of_assignment(lists);
    of_association(lists);
}
