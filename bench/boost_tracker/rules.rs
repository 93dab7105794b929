//! The scope document's float functions: the port's root, powers and exponential, larger and smaller in plain Rust, so
//! that they are inlined here as in the port.

#[link(name = "bedside", kind = "static")]
unsafe extern "C" {
    fn bedside_sqrt(x: f32) -> f32;
    fn bedside_powi(c: f32, e: i32) -> f32;
    fn bedside_powf_1_5(m: f32) -> f32;
    fn bedside_exp(a: f32) -> f32;
}

// SAFETY, of each: the function is proved to accept every value, and touches no memory.
#[inline]
pub fn sqrt(x: f32) -> f32 {
    unsafe { bedside_sqrt(x) }
}

#[inline]
pub fn powi(c: f32, e: i32) -> f32 {
    unsafe { bedside_powi(c, e) }
}

#[inline]
pub fn powf_1_5(m: f32) -> f32 {
    unsafe { bedside_powf_1_5(m) }
}

#[inline]
pub fn exp(a: f32) -> f32 {
    unsafe { bedside_exp(a) }
}

/// What the lists of the oracle put for `max` and `min` of floats.
pub trait Pick {
    fn larger(self, other: Self) -> Self;
    fn smaller(self, other: Self) -> Self;
}

impl Pick for f32 {
    #[inline]
    fn larger(self, other: f32) -> f32 {
        if self.is_nan() || self < other {
            other
        } else {
            self
        }
    }

    #[inline]
    fn smaller(self, other: f32) -> f32 {
        if self.is_nan() || other < self {
            other
        } else {
            self
        }
    }
}
