//! The pairing of boxes and tracks: the matrices, the pairs from a matrix of costs, and [`associate`].
//!
//! Boxes and tracks are given by their corners x1, y1, x2, y2. A matrix is flat, row by row, with a row for each
//! box and a cell for each track. A result may be longer than it has to be: what is not needed of it is left as
//! it was. Zero boxes or zero tracks is accepted; every number is, a NaN too. A call is turned down, with a
//! [`Refusal`], exactly where sides or lengths do not fit, or a label is none.
//!
//! ```
//! use bedside::assoc::{associate, AssociateParams, Room};
//!
//! let boxes = [[0.0, 0.0, 10.0, 10.0], [20.0, 0.0, 30.0, 10.0]];
//! let tracks = [[21.0, 0.0, 31.0, 10.0], [5.0, 0.0, 15.0, 10.0], [90.0, 0.0, 95.0, 10.0]];
//! let mut room = Room::new(2, 3);
//! let found = associate(&boxes, &tracks, &AssociateParams::default(), None, None, None, &mut room)?;
//! assert!(found.pairs().eq([(0, 1), (1, 0)]));
//! assert!(found.unmatched_detections.is_empty());
//! assert_eq!(found.unmatched_tracks, [2]);
//! # Ok::<(), bedside::assoc::Refusal>(())
//! ```

use crate::ffi::{self, Sides};
use crate::Counts;
use alloc::boxed::Box;
use alloc::vec;
use core::fmt;

pub use crate::ffi::OverlapAreas;

/// Why a pairing is turned down, with nothing changed. Where several apply, the lowest is said.
#[derive(Clone, Copy, Debug, PartialEq, Eq, Hash)]
#[non_exhaustive]
pub enum Refusal {
    /// 31: more than 255 boxes or tracks.
    TooMany,
    /// 32: a matrix, a slice of confidences or one of labels has another length than the sides say.
    OtherSize,
    /// 33: a result is too short, or the [`Room`].
    TooShort,
    /// 34: a label other than 1 to 3, of [`associate`].
    NotLabelled,
}

impl Refusal {
    /// The number of the refusal, 31 to 34.
    pub const fn number(self) -> u32 {
        match self {
            Refusal::TooMany => 31,
            Refusal::OtherSize => 32,
            Refusal::TooShort => 33,
            Refusal::NotLabelled => 34,
        }
    }

    fn of(number: u32) -> Refusal {
        match number {
            31 => Refusal::TooMany,
            32 => Refusal::OtherSize,
            33 => Refusal::TooShort,
            34 => Refusal::NotLabelled,
            _ => unreachable!("libbedside.a is not this crate's: a pairing has no refusal {number}"),
        }
    }
}

impl fmt::Display for Refusal {
    fn fmt(&self, f: &mut fmt::Formatter<'_>) -> fmt::Result {
        let why = match self {
            Refusal::TooMany => "more than 255 boxes or tracks",
            Refusal::OtherSize => "an input is not as long as the sides say",
            Refusal::TooShort => "a result or work slice is too short",
            Refusal::NotLabelled => "a label is other than 1 to 3",
        };
        write!(f, "refused {}: {why}", self.number())
    }
}

impl core::error::Error for Refusal {}

fn accepted(number: u32) -> Result<(), Refusal> {
    match number {
        0 => Ok(()),
        _ => Err(Refusal::of(number)),
    }
}

/// The overlap of a box and a track with its areas. Accepts everything: an area is given as it comes, 0, below
/// 0, an infinity or a NaN.
///
/// ```
/// let areas = bedside::assoc::overlap(&[0.0, 0.0, 10.0, 10.0], &[5.0, 0.0, 15.0, 10.0]);
/// assert_eq!((areas.intersection, areas.union_area), (50.0, 150.0));
/// assert_eq!(areas.ratio.to_bits(), 0x3eaaaaab);
/// ```
#[must_use]
pub fn overlap(detection: &[f32; 4], track: &[f32; 4]) -> OverlapAreas {
    ffi::overlap(detection, track)
}

/// The overlap of each box with each track: intersection over union, 0 unless the union is above 0.
///
/// ```
/// let mut iou = [0.0];
/// bedside::assoc::iou_batch(&[[0.0, 0.0, 10.0, 10.0]], &[[5.0, 0.0, 15.0, 10.0]], &mut iou)?;
/// assert_eq!(iou[0].to_bits(), 0x3eaaaaab);
/// # Ok::<(), bedside::assoc::Refusal>(())
/// ```
pub fn iou_batch(detections: &[[f32; 4]], tracks: &[[f32; 4]], out: &mut [f32]) -> Result<(), Refusal> {
    accepted(ffi::iou_batch(Sides { detections, tracks }, out))
}

/// The soft overlap of each box with each track: both are widened the more, the lower the track's confidence.
pub fn soft_biou_batch(
    detections: &[[f32; 4]], tracks: &[[f32; 4]], track_confidences: &[f32], out: &mut [f32],
) -> Result<(), Refusal> {
    accepted(ffi::soft_biou_batch(Sides { detections, tracks }, track_confidences, out))
}

/// How alike the shapes of each box and each track are, by the first edition's formula.
pub fn shape_similarity_v1(
    detections: &[[f32; 4]], tracks: &[[f32; 4]], out: &mut [f32],
) -> Result<(), Refusal> {
    accepted(ffi::shape_similarity_v1(Sides { detections, tracks }, out))
}

/// How alike the shapes of each box and each track are, by the corrected formula.
pub fn shape_similarity_v2(
    detections: &[[f32; 4]], tracks: &[[f32; 4]], out: &mut [f32],
) -> Result<(), Refusal> {
    accepted(ffi::shape_similarity_v2(Sides { detections, tracks }, out))
}

/// The similarities of a matrix of Mahalanobis distances, `boxes` × `tracks` of them.
pub fn mh_dist_similarity(
    boxes: usize, tracks: usize, distance: &[f32], softmax_temp: f32, out: &mut [f32],
) -> Result<(), Refusal> {
    accepted(ffi::mh_dist_similarity(boxes, tracks, distance, softmax_temp, out))
}

/// The lists and the work memory of a pairing, allocated once and used for any number of calls.
#[derive(Clone)]
pub struct Room {
    pair_boxes: Box<[usize]>,
    pair_tracks: Box<[usize]>,
    unmatched_detections: Box<[usize]>,
    unmatched_tracks: Box<[usize]>,
    work64: Box<[f64]>,
    work32: Box<[f32]>,
}

impl Room {
    /// For up to so many boxes and tracks. More than 255 of either are never paired, so a larger number counts
    /// as 255.
    #[must_use]
    pub fn new(boxes: usize, tracks: usize) -> Room {
        let (boxes, tracks) = (boxes.min(255), tracks.min(255));
        let list = |places: usize| vec![0; places].into_boxed_slice();
        let side = boxes.max(tracks);
        Room {
            pair_boxes: list(boxes.min(tracks)),
            pair_tracks: list(boxes.min(tracks)),
            unmatched_detections: list(boxes),
            unmatched_tracks: list(tracks),
            work64: vec![0.0; side * side].into_boxed_slice(),
            work32: vec![0.0; 4 * side * side].into_boxed_slice(),
        }
    }

    fn lists(&mut self) -> ffi::Lists<'_> {
        ffi::Lists {
            pair_boxes: &mut self.pair_boxes,
            pair_tracks: &mut self.pair_tracks,
            unmatched_detections: &mut self.unmatched_detections,
            unmatched_tracks: &mut self.unmatched_tracks,
            work64: &mut self.work64,
            work32: &mut self.work32,
        }
    }

    /// What an answer says of the lists.
    fn answered(&self, answer: ffi::Assignment) -> Result<Assignment<'_>, Refusal> {
        accepted(answer.refusal)?;
        let pairs = answer.pairs as usize;
        Ok(Assignment {
            pair_boxes: &self.pair_boxes[..pairs],
            pair_tracks: &self.pair_tracks[..pairs],
            unmatched_detections: &self.unmatched_detections[..answer.unmatched_detections as usize],
            unmatched_tracks: &self.unmatched_tracks[..answer.unmatched_tracks as usize],
            counts: Counts { turns: answer.turns, scans: answer.scans },
        })
    }
}

impl fmt::Debug for Room {
    fn fmt(&self, f: &mut fmt::Formatter<'_>) -> fmt::Result {
        let (boxes, tracks) = (self.unmatched_detections.len(), self.unmatched_tracks.len());
        f.debug_struct("Room").field("boxes", &boxes).field("tracks", &tracks).finish()
    }
}

/// The pairs of [`match_detections`], boxes ascending.
#[derive(Clone, Copy, Debug, PartialEq, Eq)]
#[non_exhaustive]
pub struct Matched<'a> {
    /// The box of each pair.
    pub pair_boxes: &'a [usize],
    /// The track of each pair.
    pub pair_tracks: &'a [usize],
    /// How long the assignment took.
    pub counts: Counts,
}

impl<'a> Matched<'a> {
    /// The pairs, of the index of a box and the index of a track.
    pub fn pairs(&self) -> impl ExactSizeIterator<Item = (usize, usize)> + 'a {
        paired(self.pair_boxes, self.pair_tracks)
    }
}

/// The pairs that stand, boxes ascending, and what is left. Each box is in exactly one of the lists, and so is
/// each track. An unmatched list is ascending, and then has those of the rejected pairs in pair order.
#[derive(Clone, Copy, Debug, PartialEq, Eq)]
#[non_exhaustive]
pub struct Assignment<'a> {
    /// The box of each pair.
    pub pair_boxes: &'a [usize],
    /// The track of each pair.
    pub pair_tracks: &'a [usize],
    /// The boxes without a track.
    pub unmatched_detections: &'a [usize],
    /// The tracks without a box.
    pub unmatched_tracks: &'a [usize],
    /// How long the assignment took.
    pub counts: Counts,
}

impl<'a> Assignment<'a> {
    /// The pairs, of the index of a box and the index of a track.
    pub fn pairs(&self) -> impl ExactSizeIterator<Item = (usize, usize)> + 'a {
        paired(self.pair_boxes, self.pair_tracks)
    }
}

fn paired<'a>(boxes: &'a [usize], tracks: &'a [usize]) -> impl ExactSizeIterator<Item = (usize, usize)> + 'a {
    boxes.iter().copied().zip(tracks.iter().copied())
}

/// Pairs boxes and tracks by a matrix of costs, of which the larger ones are sought: directly where no row and no
/// column has more than one above the threshold, otherwise by the assignment.
///
/// ```
/// let mut room = bedside::assoc::Room::new(2, 2);
/// let matched = bedside::assoc::match_detections(2, 2, &[0.5; 4], 0.3, &mut room)?;
/// assert!(matched.pairs().eq([(0, 0), (1, 1)]));
/// assert_eq!((matched.counts.turns, matched.counts.scans), (1, 0));
/// # Ok::<(), bedside::assoc::Refusal>(())
/// ```
pub fn match_detections<'a>(
    boxes: usize, tracks: usize, cost: &[f32], threshold: f32, room: &'a mut Room,
) -> Result<Matched<'a>, Refusal> {
    let answer = ffi::match_detections(boxes, tracks, cost, threshold, room.lists());
    accepted(answer.refusal)?;
    let pairs = answer.pairs as usize;
    Ok(Matched {
        pair_boxes: &room.pair_boxes[..pairs],
        pair_tracks: &room.pair_tracks[..pairs],
        counts: Counts { turns: answer.turns, scans: answer.scans },
    })
}

/// The pairs of [`match_detections`] whose overlap in `iou` is at least the threshold, and what is left.
pub fn linear_assignment<'a>(
    boxes: usize, tracks: usize, iou: &[f32], cost: &[f32], threshold: f32, room: &'a mut Room,
) -> Result<Assignment<'a>, Refusal> {
    let answer = ffi::linear_assignment(boxes, tracks, iou, cost, threshold, room.lists());
    room.answered(answer)
}

/// The threshold and the weights of [`associate`].
#[derive(Clone, Copy, Debug, PartialEq)]
pub struct AssociateParams {
    /// A pair whose overlap is below it is rejected.
    pub iou_threshold: f32,
    /// The weight of the overlap.
    pub lambda_iou: f32,
    /// The weight of the Mahalanobis distance.
    pub lambda_mhd: f32,
    /// The weight of the shape.
    pub lambda_shape: f32,
    /// Whether shapes are compared by the corrected formula.
    pub use_shape_similarity_correction: bool,
}

impl Default for AssociateParams {
    /// A threshold of 0.3, weights of 0.5, 0.25 and 0.25, and the correction.
    fn default() -> AssociateParams {
        AssociateParams {
            iou_threshold: 0.3,
            lambda_iou: 0.5,
            lambda_mhd: 0.25,
            lambda_shape: 0.25,
            use_shape_similarity_correction: true,
        }
    }
}

/// The confidences of tracks and of boxes, which [`associate`] uses together.
#[derive(Clone, Copy, Debug, PartialEq)]
pub struct Confidences<'a> {
    /// One for each track.
    pub tracks: &'a [f32],
    /// One for each box.
    pub detections: &'a [f32],
}

/// The labels of boxes and of tracks: numbers of [`Label`](crate::Label).
#[derive(Clone, Copy, Debug, PartialEq, Eq)]
pub struct Labels<'a> {
    /// One for each box.
    pub detections: &'a [u8],
    /// One for each track.
    pub tracks: &'a [u8],
}

impl Labels<'_> {
    /// One label for all of so many boxes and tracks; more than 255 are turned down whatever their labels.
    fn same(boxes: usize, tracks: usize) -> Labels<'static> {
        const ONES: &[u8] = &[1; 255];
        Labels { detections: &ONES[..boxes.min(255)], tracks: &ONES[..tracks.min(255)] }
    }
}

/// Pairs boxes and tracks by overlap and, where they are given, by a matrix of Mahalanobis distances and by
/// confidences and shape. Boxes and tracks of different labels are no pair, whatever the threshold: their overlap
/// and their cost are taken as 0. Without labels all are alike.
///
/// ```
/// use bedside::assoc::{associate, AssociateParams, Labels, Room};
///
/// let (place, params) = ([[0.0, 0.0, 10.0, 10.0]], AssociateParams::default());
/// let mut room = Room::new(1, 1);
/// let labels = Labels { detections: &[3], tracks: &[1] };
/// let found = associate(&place, &place, &params, None, None, Some(labels), &mut room)?;
/// assert_eq!((found.unmatched_detections, found.unmatched_tracks), (&[0][..], &[0][..]));
/// # Ok::<(), bedside::assoc::Refusal>(())
/// ```
pub fn associate<'a>(
    detections: &[[f32; 4]], tracks: &[[f32; 4]], params: &AssociateParams, mahalanobis: Option<&[f32]>,
    confidences: Option<Confidences<'_>>, labels: Option<Labels<'_>>, room: &'a mut Room,
) -> Result<Assignment<'a>, Refusal> {
    let labels = labels.unwrap_or(Labels::same(detections.len(), tracks.len()));
    let of = ffi::Association {
        params: ffi::AssociateParams {
            iou_threshold: params.iou_threshold,
            lambda_iou: params.lambda_iou,
            lambda_mhd: params.lambda_mhd,
            lambda_shape: params.lambda_shape,
            use_shape_similarity_correction: params.use_shape_similarity_correction,
            has_mahalanobis: mahalanobis.is_some(),
            has_confidence: confidences.is_some(),
        },
        sides: Sides { detections, tracks },
        mahalanobis: mahalanobis.unwrap_or_default(),
        track_confidence: confidences.map(|c| c.tracks).unwrap_or_default(),
        detection_confidence: confidences.map(|c| c.detections).unwrap_or_default(),
        detection_labels: labels.detections,
        track_labels: labels.tracks,
    };
    let answer = ffi::associate(of, room.lists());
    room.answered(answer)
}
