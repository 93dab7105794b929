//! The settings of a tracker.

use crate::ffi;
use core::fmt;

/// The settings of a [`Tracker`](crate::Tracker), with the options of jamtrack-rs's `BoostTracker` but for camera
/// alignment.
///
/// ```
/// use bedside::Settings;
///
/// let settings = Settings::new(0.5, 0.3, 30, 3).with_boost_plus_plus().with_lambdas(0.6, 0.2, 0.2);
/// assert_ne!(settings, Settings::new(0.5, 0.3, 30, 3));
/// ```
///
/// Any numbers can be set; a frame under a float that is not finite is turned down with
/// [`SettingNotFinite`](crate::Refusal::SettingNotFinite).
#[derive(Clone, Copy, PartialEq)]
pub struct Settings(pub(crate) ffi::Settings);

impl Settings {
    /// The settings of `BoostTracker::new`: weights 0.5, 0.25 and 0.25, a DLO coefficient of 0.65; both boosts
    /// and the shape similarity's correction on, rich similarity, soft boost and varying threshold off; and
    /// confidences as they are, not capped.
    ///
    /// * `det_thresh`: boxes whose score, after both boosts, is below it are left out.
    /// * `iou_threshold`: a box and a track whose overlap is below it are not paired.
    /// * `max_age`: for so many frames a track is held without a box.
    /// * `min_hits`: a track that has a box in the frame is put out if its hit streak is at least this; in the
    ///   first `min_hits` frames in any case.
    pub fn new(det_thresh: f32, iou_threshold: f32, max_age: usize, min_hits: usize) -> Settings {
        Settings(ffi::bedside_settings_new(det_thresh, iou_threshold, max_age as u64, min_hits as u64))
    }

    /// The weights of overlap, Mahalanobis distance and shape in the cost of a pair.
    #[must_use]
    pub fn with_lambdas(self, lambda_iou: f32, lambda_mhd: f32, lambda_shape: f32) -> Settings {
        Settings(ffi::Settings { lambda_iou, lambda_mhd, lambda_shape, ..self.0 })
    }

    /// Whether the scores of boxes that are like a track (DLO), and of boxes that are far from every track (DUO),
    /// are raised.
    #[must_use]
    pub fn with_boost(self, use_dlo_boost: bool, use_duo_boost: bool) -> Settings {
        Settings(ffi::Settings { use_dlo_boost, use_duo_boost, ..self.0 })
    }

    /// BoostTrack+: the DLO boost by the rich similarity, of distance, shape and soft overlap.
    #[must_use]
    pub fn with_boost_plus(self) -> Settings {
        Settings(ffi::Settings { use_rich_similarity: true, ..self.0 })
    }

    /// BoostTrack++: the rich similarity, the soft boost and the varying threshold.
    #[must_use]
    pub fn with_boost_plus_plus(self) -> Settings {
        Settings(ffi::Settings {
            use_rich_similarity: true,
            use_soft_boost: true,
            use_varying_threshold: true,
            ..self.0
        })
    }

    /// The shape similarity of BoostTrack's first edition, without its correction.
    #[must_use]
    pub fn with_shape_similarity_v1(self) -> Settings {
        Settings(ffi::Settings { use_shape_similarity_correction: false, ..self.0 })
    }

    /// The coefficient of the DLO boost, for which `BoostTracker` has no option.
    #[must_use]
    pub fn with_dlo_boost_coef(self, dlo_boost_coef: f32) -> Settings {
        Settings(ffi::Settings { dlo_boost_coef, ..self.0 })
    }

    /// Whether a confidence above 1 is put out as 1, so that every one is from 0 to 1. All else is the same as
    /// without it: ids, places, and which boxes and tracks are paired. `BoostTracker` has no such option.
    #[must_use]
    pub fn with_cap_confidence(self, cap_confidence: bool) -> Settings {
        Settings(ffi::Settings { cap_confidence, ..self.0 })
    }
}

impl fmt::Debug for Settings {
    fn fmt(&self, f: &mut fmt::Formatter<'_>) -> fmt::Result {
        self.0.fmt(f)
    }
}

#[cfg(test)]
mod tests {
    use super::Settings;
    use crate::ffi;

    /// The fields of `BoostTracker::new(0.6, 0.3, 30, 3)`.
    const NEW: ffi::Settings = ffi::Settings {
        det_thresh: 0.6,
        iou_threshold: 0.3,
        lambda_iou: 0.5,
        lambda_mhd: 0.25,
        lambda_shape: 0.25,
        dlo_boost_coef: 0.65,
        max_age: 30,
        min_hits: 3,
        use_dlo_boost: true,
        use_duo_boost: true,
        use_rich_similarity: false,
        use_shape_similarity_correction: true,
        use_soft_boost: false,
        use_varying_threshold: false,
        cap_confidence: false,
    };

    #[test]
    fn each_option_sets_its_fields_alone() {
        let new = Settings::new(0.6, 0.3, 30, 3);
        assert_eq!(new.0, NEW);
        let weights = ffi::Settings { lambda_iou: 1.0, lambda_mhd: 2.0, lambda_shape: 3.0, ..NEW };
        assert_eq!(new.with_lambdas(1.0, 2.0, 3.0).0, weights);
        assert_eq!(new.with_boost(false, true).0, ffi::Settings { use_dlo_boost: false, ..NEW });
        assert_eq!(new.with_boost(true, false).0, ffi::Settings { use_duo_boost: false, ..NEW });
        let plus = ffi::Settings { use_rich_similarity: true, ..NEW };
        assert_eq!(new.with_boost_plus().0, plus);
        let plus_plus = ffi::Settings { use_soft_boost: true, use_varying_threshold: true, ..plus };
        assert_eq!(new.with_boost_plus_plus().0, plus_plus);
        let first = ffi::Settings { use_shape_similarity_correction: false, ..NEW };
        assert_eq!(new.with_shape_similarity_v1().0, first);
        assert_eq!(new.with_dlo_boost_coef(0.5).0, ffi::Settings { dlo_boost_coef: 0.5, ..NEW });
        assert_eq!(new.with_cap_confidence(true).0, ffi::Settings { cap_confidence: true, ..NEW });
        assert_eq!(new.with_cap_confidence(true).with_cap_confidence(false).0, NEW);
    }
}
