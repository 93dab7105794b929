//! What a frame does with one of its boxes.

use crate::ffi;

/// What became of a box.
#[derive(Clone, Copy, Debug, PartialEq, Eq, Hash)]
pub enum Fate {
    /// 1: it is matched to a held track.
    Matched {
        /// The id of that track.
        id: u64,
    },
    /// 2: it was in no pair, and started a track.
    Started {
        /// The id of the new track.
        id: u64,
    },
    /// 3: its score after both boosts is below `det_thresh`, and the frame drops it.
    UnderThreshold,
    /// 4: it was rejected as a pair, for its IoU or its label, and started a track.
    Rejected {
        /// The id of the new track.
        id: u64,
    },
}

impl Fate {
    /// 1 to 4, as the C interface has it.
    #[must_use]
    pub const fn number(self) -> u32 {
        match self {
            Fate::Matched { .. } => 1,
            Fate::Started { .. } => 2,
            Fate::UnderThreshold => 3,
            Fate::Rejected { .. } => 4,
        }
    }

    /// The id of the track matched or started; None for a box that the frame drops.
    #[must_use]
    pub const fn id(self) -> Option<u64> {
        match self {
            Fate::Matched { id } | Fate::Started { id } | Fate::Rejected { id } => Some(id),
            Fate::UnderThreshold => None,
        }
    }
}

/// The track that a box was paired with, predicted for the frame.
#[derive(Clone, Copy, Debug, PartialEq)]
#[non_exhaustive]
pub struct Paired {
    /// Its id.
    pub id: u64,
    /// The IoU of box and track as the frame compares it with `iou_threshold`: 0 under unequal labels.
    pub iou: f32,
    /// The area that they share, as computed.
    pub intersection: f32,
    /// The area of their union, as computed.
    pub union_area: f32,
}

/// Why a box has no track, or which it has: what [`Tracker::why`](crate::Tracker::why) tells of it.
#[derive(Clone, Copy, Debug, PartialEq)]
#[non_exhaustive]
pub struct Explanation {
    /// What becomes of the box.
    pub fate: Fate,
    /// Its score as given.
    pub score: f32,
    /// After the DLO boost.
    pub score_dlo: f32,
    /// After the DUO boost: this one is held to `det_thresh`.
    pub score_duo: f32,
    /// The track that it was paired with, of a box that is matched or rejected.
    pub paired: Option<Paired>,
}

impl Explanation {
    /// Of an answer without a refusal.
    pub(crate) fn of(a: &ffi::Explanation) -> Explanation {
        let fate = match a.fate {
            1 => Fate::Matched { id: a.id },
            2 => Fate::Started { id: a.id },
            3 => Fate::UnderThreshold,
            4 => Fate::Rejected { id: a.id },
            number => unreachable!("libbedside.a is not this crate's: there is no fate {number}"),
        };
        let ffi::Explanation { paired_id: id, iou, intersection, union_area, .. } = *a;
        let paired = (id != 0).then_some(Paired { id, iou, intersection, union_area });
        let ffi::Explanation { score, score_dlo, score_duo, .. } = *a;
        Explanation { fate, score, score_dlo, score_duo, paired }
    }
}
