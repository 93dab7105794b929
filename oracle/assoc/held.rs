//! The floats that crates/assoc_vectors holds for its calls, each slice in its place, and the records that put them there.

use oracle::drawn::Slice;
use oracle::records::Records;

/// Where a slice is held.
#[derive(Clone, Copy, PartialEq, Eq, Hash)]
pub struct Place(usize);

pub const DETECTIONS: Place = Place(0);
pub const CORNERS: Place = Place(1024);
pub const TRACK_CONFIDENCE: Place = Place(2048);
pub const DETECTION_CONFIDENCE: Place = Place(2560);
pub const DISTANCE: Place = Place(3072);
pub const COST: Place = Place(68100);
pub const IOU: Place = Place(133127);

impl Place {
    /// Where `length` floats start and end there.
    pub fn range(self, length: usize) -> [usize; 2] {
        [self.0, self.0 + length]
    }
}

/// Kinds of records.
const FOLLOW: u64 = 8;
const DRAWN: u64 = 9;

/// Holds a slice.
pub fn put(records: &mut Records, place: Place, slice: &Slice) {
    let range = place.range(slice.floats.len());
    if slice.passes.is_empty() {
        records.words(&[FOLLOW]);
        records.numbers(&range);
        records.floats(&slice.floats);
    }
    for pass in &slice.passes {
        records.words(&[DRAWN]);
        records.numbers(&range);
        records.long(pass.seed);
        records.words(&[pass.spread as u64, pass.step as u64]);
        records.words(&pass.patterns.map(|k| k as u64));
        records.words(&[0; 3]);
    }
}
