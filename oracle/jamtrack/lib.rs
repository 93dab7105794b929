//! The published tracker as a library. build.rs says which files it has, and what is changed in them.

#![allow(warnings)]

pub extern crate floats;

pub mod areas;
pub mod stages;

include!(concat!(env!("OUT_DIR"), "/modules.rs"));

/// `lapjv`, which the crate keeps to itself.
pub fn assign(cost: &mut Vec<Vec<f64>>, x: &mut Vec<isize>, y: &mut Vec<isize>) -> Result<(), error::TrackError> {
    lapjv::lapjv(cost, x, y)
}
