//! A stand-in for the crate image: the type of a picture that boost_tracker.rs names. No run has a picture.

pub struct GrayImage;

impl GrayImage {
    pub fn width(&self) -> u32 {
        unreachable!()
    }

    pub fn height(&self) -> u32 {
        unreachable!()
    }

    pub fn as_raw(&self) -> &[u8] {
        unreachable!()
    }
}
