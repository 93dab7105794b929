//! The digest that docs/ORACLE.md defines, and the step of the random generator.

/// One step of a xorshift generator of 64 bits, and of a digest.
pub fn next(r: u64) -> u64 {
    let a = r ^ (r << 13);
    let b = a ^ (a >> 7);
    b ^ (b << 17)
}

/// The bits of x, of one zero and one NaN.
pub fn bits(x: f32) -> u32 {
    if x.is_nan() {
        0x7fc0_0000
    } else if x == 0.0 {
        0
    } else {
        x.to_bits()
    }
}

/// A checksum of slices, one after the other.
#[derive(Clone, Copy)]
pub struct Digest(pub u64);

impl Default for Digest {
    fn default() -> Digest {
        Digest::new()
    }
}

impl Digest {
    pub fn new() -> Digest {
        Digest(1)
    }

    pub fn words(self, words: impl Iterator<Item = u64>) -> Digest {
        Digest(words.fold(self.0, |sum, word| next(sum ^ word)))
    }

    pub fn floats(self, s: &[f32]) -> Digest {
        self.words(s.iter().map(|&x| bits(x) as u64))
    }

    pub fn doubles(self, s: &[f64]) -> Digest {
        self.words(s.iter().map(|x| x.to_bits()))
    }

    pub fn numbers(self, s: &[usize]) -> Digest {
        self.words(s.iter().map(|&k| k as u64))
    }

    pub fn bytes(self, s: &[u8]) -> Digest {
        self.words(s.iter().map(|&k| k as u64))
    }
}
