//! The scope document's float functions, by the port's library: what the oracles' substitutions put for the platform's.

#[link(name = "bedside", kind = "static")]
unsafe extern "C" {
    fn bedside_max(a: f32, b: f32) -> f32;
    fn bedside_min(a: f32, b: f32) -> f32;
    fn bedside_sqrt(x: f32) -> f32;
    fn bedside_powi(c: f32, e: i32) -> f32;
    fn bedside_powf_1_5(m: f32) -> f32;
    fn bedside_exp(a: f32) -> f32;
}

// SAFETY, of each: the function is proved to accept every value, and touches no memory.
pub fn sqrt(x: f32) -> f32 {
    unsafe { bedside_sqrt(x) }
}

pub fn powi(c: f32, e: i32) -> f32 {
    unsafe { bedside_powi(c, e) }
}

pub fn powf_1_5(m: f32) -> f32 {
    unsafe { bedside_powf_1_5(m) }
}

pub fn exp(a: f32) -> f32 {
    unsafe { bedside_exp(a) }
}

/// What stands for `max` and `min` of floats.
pub trait Pick {
    fn larger(self, other: Self) -> Self;
    fn smaller(self, other: Self) -> Self;
}

impl Pick for f32 {
    fn larger(self, other: f32) -> f32 {
        unsafe { bedside_max(self, other) }
    }

    fn smaller(self, other: f32) -> f32 {
        unsafe { bedside_min(self, other) }
    }
}
