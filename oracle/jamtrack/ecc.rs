//! A stand-in for ecc.rs, which is not ported: the types that boost_tracker.rs names. No run has a picture.

#[derive(Default)]
pub struct EccConfig;

#[derive(Debug)]
pub struct EccAligner;

impl EccAligner {
    pub fn new(_: EccConfig) -> Self {
        unreachable!()
    }

    pub fn estimate(&mut self, _: &[u8], _: usize, _: usize) -> [[f32; 3]; 3] {
        unreachable!()
    }
}
