//! The float functions, which accept everything.
//!
//! Rust leaves the last bits of `exp`, `powi` and `powf` open; these are fixed by the scope document.
//!
//! ```
//! use bedside::float;
//!
//! assert_eq!(float::max(1.0, f32::NAN), 1.0);
//! assert_eq!(float::sqrt(2.0).to_bits(), 0x3fb504f3);
//! assert_eq!(float::powi(0.9, -1).to_bits(), 0x3f8e38e4);
//! assert_eq!(float::exp(89.0), f32::INFINITY);
//! ```

use crate::ffi;

/// The larger; where one is a NaN, the other; of two equal ones, `a`.
pub fn max(a: f32, b: f32) -> f32 {
    ffi::bedside_max(a, b)
}

/// The smaller; where one is a NaN, the other; of two equal ones, `a`.
pub fn min(a: f32, b: f32) -> f32 {
    ffi::bedside_min(a, b)
}

/// The root, to the nearest float, ties to even; a NaN below zero.
pub fn sqrt(x: f32) -> f32 {
    ffi::bedside_sqrt(x)
}

/// `c` to the power `e`.
pub fn powi(c: f32, e: i32) -> f32 {
    ffi::bedside_powi(c, e)
}

/// `m` to the power 1.5: `m` times its root.
pub fn powf_1_5(m: f32) -> f32 {
    ffi::bedside_powf_1_5(m)
}

/// e to the power `a`.
pub fn exp(a: f32) -> f32 {
    ffi::bedside_exp(a)
}
