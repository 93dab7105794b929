//! A call of a routine of the pairing: what it is given and lent, and what the published assoc.rs makes of it, of labels
//! by the rule that is put into it, or the refusal of the scope document and of document 02.

use crate::verdict::unlabelled;
use jamtrack_rs::boost_tracker::assoc::{self, AssignmentResult, AssociateParams};
use jamtrack_rs::{counters, labels};
use nalgebra::DMatrix;

pub const ROUTINES: [&str; 8] = [
    "iou_batch", "soft_biou_batch", "shape_similarity_v1", "shape_similarity_v2", "mh_dist_similarity",
    "match_detections", "linear_assignment", "associate",
];
pub const SOFT: usize = 1;
pub const SIMILARITY: usize = 4;
pub const MATCH: usize = 5;
pub const ASSIGN: usize = 6;
pub const ASSOCIATE: usize = 7;

/// What every cell of a lent result slice holds before the call, and of a work slice.
pub const LIST: usize = 7777;
pub const CELL: f32 = 7.0;
pub const WORK: f64 = 1.0;

pub struct Call {
    pub routine: usize,
    pub boxes: usize,
    pub tracks: usize,
    /// Of `associate`: 1 distances, 2 confidences, 4 the corrected shape.
    pub flags: usize,
    /// The threshold, or the temperature; and the weights of `associate`.
    pub floats: [f32; 4],
    /// In the order of include/bedside.h. The confidences of a routine that takes none are not looked at.
    pub inputs: Vec<Vec<f32>>,
    /// Of `associate`: the labels of the boxes and of the tracks.
    pub labels: [Vec<u8>; 2],
    /// Lengths of the matrix, of the lists and of both work slices.
    pub out: usize,
    pub lists: Vec<usize>,
    pub work: [usize; 2],
}

/// The refusal and the counts, and every lent slice after the call.
pub struct Answer {
    pub words: Vec<u64>,
    pub out: Vec<f32>,
    pub lists: Vec<Vec<usize>>,
    pub work64: Vec<f64>,
    pub work32: Vec<f32>,
}

// ---- the numbers of a refusal

pub fn area(boxes: usize, tracks: usize) -> usize {
    boxes.saturating_mul(tracks)
}

/// n * n, n the larger side.
pub fn square(boxes: usize, tracks: usize) -> usize {
    let n = boxes.max(tracks);
    area(n, n)
}

impl Call {
    /// The length that each input has to have; none where it is not looked at.
    fn wanted(&self) -> Vec<Option<usize>> {
        let (boxes, tracks) = (self.boxes, self.tracks);
        let corners = [Some(area(boxes, 4)), Some(area(tracks, 4))];
        let cells = Some(area(boxes, tracks));
        match self.routine {
            SIMILARITY | MATCH => vec![cells],
            ASSIGN => vec![cells, cells],
            ASSOCIATE => {
                let (distance, confidence) = (self.flags % 2 == 1, self.flags / 2 % 2 == 1);
                let optional = [cells.filter(|_| distance), confidence.then_some(tracks), confidence.then_some(boxes)];
                [&corners[..], &optional].concat()
            }
            _ => [&corners[..], &[(self.routine == SOFT).then_some(tracks)]].concat(),
        }
    }

    fn lists_short(&self) -> bool {
        let few = self.boxes.min(self.tracks);
        self.lists.iter().zip([few, few, self.boxes, self.tracks]).any(|(&length, least)| length < least)
    }

    fn short(&self) -> bool {
        let cells = square(self.boxes, self.tracks);
        match self.routine {
            0..MATCH => self.out < area(self.boxes, self.tracks),
            ASSOCIATE => self.lists_short() || self.work[0] < cells || self.work[1] < area(cells, 4),
            _ => self.lists_short() || self.work[0] < cells,
        }
    }

    /// Of `associate`: "label slices count under 32".
    fn other_labels(&self) -> bool {
        self.routine == ASSOCIATE && (self.labels[0].len() != self.boxes || self.labels[1].len() != self.tracks)
    }

    /// "34 such a label in associating, the one pairing routine that takes labels": of either side.
    fn not_labelled(&self) -> bool {
        self.routine == ASSOCIATE && self.labels.iter().flatten().copied().any(unlabelled)
    }

    /// The lowest that applies: 31 too many, 32 another size, 33 too short, 34 a label that is none.
    pub fn refusal(&self) -> u64 {
        let unlike = |(input, wanted): (&Vec<f32>, Option<usize>)| wanted.is_some_and(|length| length != input.len());
        if self.boxes > 255 || self.tracks > 255 {
            31
        } else if self.inputs.iter().zip(self.wanted()).any(unlike) || self.other_labels() {
            32
        } else if self.short() {
            33
        } else if self.not_labelled() {
            34
        } else {
            0
        }
    }
}

// ---- the Rust's forms

fn boxes_of(s: &[f32]) -> Vec<[f32; 4]> {
    s.chunks_exact(4).map(|c| [c[0], c[1], c[2], c[3]]).collect()
}

impl Call {
    fn matrix(&self, input: usize) -> DMatrix<f32> {
        let mut m = DMatrix::zeros(self.boxes, self.tracks);
        for i in 0..self.boxes {
            for j in 0..self.tracks {
                m[(i, j)] = self.inputs[input][i * self.tracks + j];
            }
        }
        m
    }

    fn params(&self) -> AssociateParams {
        let [iou_threshold, lambda_iou, lambda_mhd, lambda_shape] = self.floats;
        let use_shape_similarity_correction = self.flags / 4 % 2 == 1;
        AssociateParams { iou_threshold, lambda_iou, lambda_mhd, lambda_shape, use_shape_similarity_correction }
    }

    fn of_corners(&self) -> DMatrix<f32> {
        let (detections, tracks) = (boxes_of(&self.inputs[0]), boxes_of(&self.inputs[1]));
        match self.routine {
            0 => assoc::iou_batch(&detections, &tracks),
            SOFT => assoc::soft_biou_batch(&detections, &tracks, &self.inputs[2]),
            2 => assoc::shape_similarity_v1(&detections, &tracks),
            _ => assoc::shape_similarity_v2(&detections, &tracks),
        }
    }

    fn associated(&self) -> AssignmentResult {
        let confidence = |input: usize| (self.flags / 2 % 2 == 1).then_some(&self.inputs[input][..]);
        labels::give(&self.labels[0], &self.labels[1]);
        assoc::associate(
            &boxes_of(&self.inputs[0]),
            &boxes_of(&self.inputs[1]),
            &self.params(),
            (self.flags % 2 == 1).then(|| self.matrix(2)).as_ref(),
            confidence(3),
            confidence(4),
        )
    }
}

// ---- what is answered

fn first(pairs: &[(usize, usize)]) -> Vec<usize> {
    pairs.iter().map(|p| p.0).collect()
}

fn second(pairs: &[(usize, usize)]) -> Vec<usize> {
    pairs.iter().map(|p| p.1).collect()
}

impl Call {
    /// Nothing written: a refused call, if work slices stay; an accepted one with nothing to say, if they are zero.
    fn empty(&self, refusal: u64) -> Answer {
        let counts = [0, 0, 0, 0, 0, 3, 5, 5][self.routine];
        let work = if refusal == 0 { 0.0 } else { WORK };
        Answer {
            words: [&[refusal], &vec![0; counts][..]].concat(),
            out: vec![CELL; self.out],
            lists: self.lists.iter().map(|&length| vec![LIST; length]).collect(),
            work64: vec![work; self.work[0]],
            work32: vec![work as f32; self.work[1]],
        }
    }

    fn with_matrix(&self, m: &DMatrix<f32>) -> Answer {
        let mut answer = self.empty(0);
        for i in 0..m.nrows() {
            for j in 0..m.ncols() {
                answer.out[i * m.ncols() + j] = m[(i, j)];
            }
        }
        answer
    }

    /// The lists, of which `counted` are counted, and lapjv's counts.
    fn with_lists(&self, lists: &[Vec<usize>], counted: &[usize]) -> Answer {
        let mut answer = self.empty(0);
        for (lent, list) in answer.lists.iter_mut().zip(lists) {
            lent[..list.len()].copy_from_slice(list);
        }
        let counts = counters::take();
        let lengths: Vec<u64> = counted.iter().map(|&k| lists[k].len() as u64).collect();
        answer.words = [&[0], &lengths[..], &[counts.turns, counts.scans]].concat();
        answer
    }

    fn with_assignment(&self, result: AssignmentResult) -> Answer {
        let AssignmentResult { matches, unmatched_detections, unmatched_tracks } = result;
        let lists = [first(&matches), second(&matches), unmatched_detections, unmatched_tracks];
        self.with_lists(&lists, &[1, 2, 3])
    }

    /// What the Rust makes of the call, or its refusal.
    pub fn answer(&self) -> Answer {
        let refusal = self.refusal();
        if refusal != 0 {
            return self.empty(refusal);
        }
        counters::take();
        labels::take();
        match self.routine {
            SIMILARITY => self.with_matrix(&assoc::mh_dist_similarity(&self.matrix(0), self.floats[0])),
            MATCH => {
                let pairs = assoc::match_detections(&self.matrix(0), self.floats[0]);
                self.with_lists(&[first(&pairs), second(&pairs)], &[1])
            }
            ASSIGN => {
                let (iou, cost) = (self.matrix(0), self.matrix(1));
                self.with_assignment(assoc::linear_assignment(&iou, &cost, self.floats[0], None))
            }
            ASSOCIATE => self.with_assignment(self.associated()),
            _ => self.with_matrix(&self.of_corners()),
        }
    }
}
