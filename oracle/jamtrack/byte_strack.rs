//! A stand-in for the track of another tracker, which object.rs converts from. No run makes one.

use crate::rect::Rect;

pub struct STrack;

impl STrack {
    pub fn get_rect(&self) -> Rect<f32> {
        unreachable!()
    }

    pub fn get_score(&self) -> f32 {
        unreachable!()
    }

    pub fn get_track_id(&self) -> usize {
        unreachable!()
    }
}
