//! The scope document's float functions: the port's exponential, larger and smaller in plain Rust, so that they are
//! inlined here as in the port.

#[link(name = "bedside", kind = "static")]
extern "C" {
    fn bedside_exp(a: f32) -> f32;
}

// SAFETY: the function is proved to accept every value, and touches no memory.
pub fn exp(a: f32) -> f32 {
    unsafe { bedside_exp(a) }
}

/// What oracle/jamtrack/assoc.list puts for `max` and `min` of floats.
pub trait Pick {
    fn larger(self, other: Self) -> Self;
    fn smaller(self, other: Self) -> Self;
}

impl Pick for f32 {
    #[inline]
    fn larger(self, other: f32) -> f32 {
        if self.is_nan() || self < other {
            other
        } else {
            self
        }
    }

    #[inline]
    fn smaller(self, other: f32) -> f32 {
        if self.is_nan() || other < self {
            other
        } else {
            self
        }
    }
}
