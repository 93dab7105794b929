//! Why a frame, a question about one of its boxes, or a drop is turned down.

use core::fmt;

/// Why a frame is turned down, a question about one of its boxes, or a drop of tracks. The call then changed nothing,
/// and the tracker can be used on.
///
/// Each variant is a number of the scope document, which [`number`](Refusal::number) gives. Where several apply,
/// the first of 11, 10, 12 to 16, 20, 17 to 19, 81 is said, and of a drop the first of 11, 10, 101, 102. A
/// [`Tracker`](crate::Tracker) keeps its table sound and has memory for every frame that fits into it, so it is not
/// turned down with 10, 11, 18 or 19; they are here because the library knows them.
#[derive(Clone, Copy, Debug, PartialEq, Eq, Hash)]
#[non_exhaustive]
pub enum Refusal {
    /// 10: a held track has a label other than 1 to 3.
    TrackNotLabelled,
    /// 11: the table is not sound.
    TableNotSound,
    /// 12: a float of a held track is not finite, or a track cannot be corrected. A correction that is called
    /// by itself, [`Pair::correct`](crate::filter::Pair::correct), is turned down with this too.
    TrackNotWorkable,
    /// 13: a float setting is not finite.
    SettingNotFinite,
    /// 14: more than 255 boxes.
    TooManyBoxes,
    /// 15: held tracks and boxes are together more than the table has places.
    TableFull,
    /// 16: a box has a value that is not finite, a width or height that is not above 0, a number beyond 65536 in
    /// magnitude, or a score outside 0 to 1.
    BadBox {
        /// The lowest index of such a box.
        index: usize,
    },
    /// 17: 2147483647 frames are worked, the most there can be.
    TooManyFrames,
    /// 18: the output has no room for a record of each held track and each box.
    OutputShort,
    /// 19: a work slice is too short.
    WorkShort,
    /// 20: a box has a label other than 1 to 3.
    BoxNotLabelled {
        /// The lowest index of such a box.
        index: usize,
    },
    /// 81: the index is not below the number of boxes, of [`Tracker::why`](crate::Tracker::why) alone.
    NoBox,
    /// 101: an id stands twice in the list of a drop.
    IdTwice,
    /// 102: an id of a drop is not that of a held track.
    IdNotHeld,
}

impl Refusal {
    /// The number of the refusal, 10 to 20, 81, 101 or 102.
    ///
    /// ```
    /// assert_eq!(bedside::Refusal::BadBox { index: 3 }.number(), 16);
    /// ```
    pub const fn number(self) -> u32 {
        match self {
            Refusal::TrackNotLabelled => 10,
            Refusal::TableNotSound => 11,
            Refusal::TrackNotWorkable => 12,
            Refusal::SettingNotFinite => 13,
            Refusal::TooManyBoxes => 14,
            Refusal::TableFull => 15,
            Refusal::BadBox { .. } => 16,
            Refusal::TooManyFrames => 17,
            Refusal::OutputShort => 18,
            Refusal::WorkShort => 19,
            Refusal::BoxNotLabelled { .. } => 20,
            Refusal::NoBox => 81,
            Refusal::IdTwice => 101,
            Refusal::IdNotHeld => 102,
        }
    }

    /// The refusal of a number that the library answered, which is proved to be one of these.
    pub(crate) fn of(number: u32, index: u64) -> Refusal {
        match number {
            10 => Refusal::TrackNotLabelled,
            11 => Refusal::TableNotSound,
            12 => Refusal::TrackNotWorkable,
            13 => Refusal::SettingNotFinite,
            14 => Refusal::TooManyBoxes,
            15 => Refusal::TableFull,
            16 => Refusal::BadBox { index: index as usize },
            17 => Refusal::TooManyFrames,
            18 => Refusal::OutputShort,
            19 => Refusal::WorkShort,
            20 => Refusal::BoxNotLabelled { index: index as usize },
            81 => Refusal::NoBox,
            101 => Refusal::IdTwice,
            102 => Refusal::IdNotHeld,
            _ => unreachable!("libbedside.a is not this crate's: no frame or drop has the refusal {number}"),
        }
    }
}

impl fmt::Display for Refusal {
    fn fmt(&self, f: &mut fmt::Formatter<'_>) -> fmt::Result {
        write!(f, "refused {}: ", self.number())?;
        match self {
            Refusal::TrackNotLabelled => f.write_str("a track has a label other than 1 to 3"),
            Refusal::TableNotSound => f.write_str("the table is not sound"),
            Refusal::TrackNotWorkable => f.write_str("a track cannot be predicted and corrected"),
            Refusal::SettingNotFinite => f.write_str("a float setting is not finite"),
            Refusal::TooManyBoxes => f.write_str("more than 255 boxes"),
            Refusal::TableFull => f.write_str("held tracks and boxes exceed the places of the table"),
            Refusal::BadBox { index } => write!(f, "box {index} has a value outside its limits"),
            Refusal::TooManyFrames => f.write_str("the frame count has reached its limit"),
            Refusal::OutputShort => f.write_str("the output is shorter than held tracks and boxes need"),
            Refusal::WorkShort => f.write_str("a work slice is too short"),
            Refusal::BoxNotLabelled { index } => write!(f, "box {index} has a label other than 1 to 3"),
            Refusal::NoBox => f.write_str("the frame has no box of this index"),
            Refusal::IdTwice => f.write_str("an id stands twice in the list"),
            Refusal::IdNotHeld => f.write_str("an id is not that of a held track"),
        }
    }
}

impl core::error::Error for Refusal {}

#[cfg(test)]
mod tests {
    use super::Refusal;
    use std::string::ToString;

    #[test]
    fn a_number_and_its_refusal() {
        for number in (10..=20).chain([81, 101, 102]) {
            let refusal = Refusal::of(number, 7);
            assert_eq!(refusal.number(), number);
            assert!(refusal.to_string().starts_with(&std::format!("refused {number}: ")));
        }
        assert_eq!(Refusal::of(16, 7), Refusal::BadBox { index: 7 });
        assert!(Refusal::of(16, 7).to_string().contains("box 7 "));
        assert_eq!(Refusal::of(20, 7), Refusal::BoxNotLabelled { index: 7 });
        assert!(Refusal::of(20, 7).to_string().contains("box 7 "));
    }
}
