//! The float function that our stand-in for nalgebra calls, by the platform.

#[inline]
pub fn sqrt(x: f32) -> f32 {
    x.sqrt()
}
