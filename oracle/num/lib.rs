// A stand-in for the crate num: what rect.rs uses of `Float`, with document 01's larger and smaller.
use std::ops::{Add, Div, Mul, Sub};

pub trait Float:
    Copy + PartialOrd + Add<Output = Self> + Sub<Output = Self> + Mul<Output = Self> + Div<Output = Self>
{
    fn from(whole: u8) -> Option<Self>;

    fn zero() -> Self {
        Self::from(0).unwrap()
    }

    fn is_nan(self) -> bool {
        self != self
    }

    // The first where both are not a number or they are equal.
    fn max(self, other: Self) -> Self {
        if self.is_nan() && !other.is_nan() || self < other {
            other
        } else {
            self
        }
    }

    fn min(self, other: Self) -> Self {
        if self.is_nan() && !other.is_nan() || other < self {
            other
        } else {
            self
        }
    }
}

impl Float for f32 {
    fn from(whole: u8) -> Option<f32> {
        Some(whole as f32)
    }
}
