//! The filter of a track as four pairs, the conversions between corners and what it measures, and a track's
//! confidence.
//!
//! ```
//! use bedside::filter::{Pair, NOISE};
//!
//! let predicted = Pair::new(10.0).predict();
//! assert_eq!((predicted.p, predicted.a, predicted.b), (10.0, 10011.0, 10000.0));
//! let corrected = predicted.correct(12.0, NOISE[0])?;
//! assert!(corrected.p > 11.99 && corrected.p < 12.0);
//! # Ok::<(), bedside::Refusal>(())
//! ```

use crate::{ffi, Refusal};

pub use crate::ffi::Pair;

/// The noise of the four measured numbers: x, y, height and aspect ratio.
pub const NOISE: [f32; 4] = [1.0, 1.0, 10.0, 0.01];

impl Pair {
    /// A pair that starts at the measured `z`, with speed 0.
    #[must_use]
    pub fn new(z: f32) -> Pair {
        ffi::bedside_pair_new(z)
    }

    /// The pair one frame later. Accepts everything.
    #[must_use]
    pub fn predict(self) -> Pair {
        ffi::bedside_pair_predict(self)
    }

    /// The pair once `z` is measured with noise `r` ([`NOISE`]).
    ///
    /// # Errors
    ///
    /// [`TrackNotWorkable`](Refusal::TrackNotWorkable) where `a + r` is not positive and finite.
    pub fn correct(self, z: f32, r: f32) -> Result<Pair, Refusal> {
        let answer = ffi::bedside_pair_correct(self, z, r);
        match answer.refusal {
            0 => Ok(answer.pair),
            number => Err(Refusal::of(number, 0)),
        }
    }
}

/// Corners x1, y1, x2, y2 to what the filter measures: the centre x, y, the height and the aspect ratio.
///
/// ```
/// assert_eq!(bedside::filter::convert_bbox_to_z(&[10.0, 20.0, 42.0, 84.0]), [26.0, 52.0, 64.0, 0.5]);
/// ```
#[must_use]
pub fn convert_bbox_to_z(bbox: &[f32; 4]) -> [f32; 4] {
    ffi::convert_bbox_to_z(bbox)
}

/// What the filter measures to corners x1, y1, x2, y2; an aspect ratio of 0 or below gives width 0.
#[must_use]
pub fn convert_z_to_bbox(z: &[f32; 4]) -> [f32; 4] {
    ffi::convert_z_to_bbox(z)
}

/// A track's confidence: `coef` to the power 7 − `age` for an age below 7, else to the power
/// `time_since_update` − 1. The tracker's `coef` is 0.9; just after a match an older track has 1.11.
///
/// ```
/// assert_eq!(bedside::filter::confidence(0, 0, 0.9).to_bits(), 0x3ef4e351);
/// ```
#[must_use]
pub fn confidence(age: u64, time_since_update: u64, coef: f32) -> f32 {
    ffi::bedside_confidence(age, time_since_update, coef)
}
