//! What both sides are run on: the sample nights, and crowds that are made here.

/// The boxes of each frame, five floats each, and the places that are lent for.
pub struct Night {
    pub name: String,
    pub frames: Vec<Vec<f32>>,
    pub places: usize,
}

/// A night of samples/, with places as trackbox lends them. Labels are left out, as the published tracker knows none.
fn sample(name: &str) -> Night {
    let bytes = std::fs::read(format!("{}/{name}.boxes", env!("SAMPLES"))).expect("a sample night");
    let mut frames: Vec<Vec<f32>> = Vec::new();
    for record in bytes.chunks_exact(25) {
        let word = |k: usize| u32::from_le_bytes(record[4 * k..4 * k + 4].try_into().unwrap());
        frames.resize(frames.len().max(word(0) as usize), Vec::new());
        frames[word(0) as usize - 1].extend((1..6).map(|k| f32::from_bits(word(k))));
    }
    Night { name: name.to_string(), frames, places: 64 }
}

/// A xorshift generator of 64 bits.
struct Random(u64);

impl Random {
    fn below(&mut self, most: u64) -> u64 {
        self.0 ^= self.0 << 13;
        self.0 ^= self.0 >> 7;
        self.0 ^= self.0 << 17;
        (self.0 >> 11) % most
    }

    /// From `low` up to `high`, in 64ths.
    fn from(&mut self, low: i64, high: i64) -> f32 {
        (64 * low + self.below(64 * (high - low) as u64) as i64) as f32 / 64.0
    }
}

/// Someone in a crowd: left, top, width, height, and the steps in both directions.
struct Body {
    at: [f32; 4],
    step: [f32; 2],
}

impl Body {
    fn new(r: &mut Random, field: i64) -> Body {
        Body {
            at: [r.from(0, field), r.from(0, field), r.from(40, 80), r.from(80, 160)],
            step: [r.from(-4, 4), r.from(-4, 4)],
        }
    }

    /// One step, turned back at the edge of the field.
    fn walk(&mut self, field: f32) {
        for k in 0..2 {
            if !(0.0..field).contains(&(self.at[k] + self.step[k])) {
                self.step[k] = -self.step[k];
            }
            self.at[k] += self.step[k];
        }
    }

    /// The box that a detector gives, a pixel off at most; one in ten is missed.
    fn seen(&self, r: &mut Random) -> Vec<f32> {
        if r.below(10) == 0 {
            return Vec::new();
        }
        let score = (300 + r.below(724)) as f32 / 1024.0;
        self.at.iter().map(|x| x + r.from(-1, 1)).chain([score]).collect()
    }
}

/// So many bodies in a field that has room for four times as many, for 300 frames.
fn crowd(bodies: usize) -> Night {
    let field = (120.0 * (4.0 * bodies as f64).sqrt()) as i64;
    let mut r = Random(88172645463325252 + bodies as u64);
    let mut crowd: Vec<Body> = (0..bodies).map(|_| Body::new(&mut r, field)).collect();
    let mut frame = || {
        crowd.iter_mut().for_each(|body| body.walk(field as f32));
        crowd.iter().flat_map(|body| body.seen(&mut r)).collect()
    };
    Night { name: format!("crowd of {bodies}"), frames: (0..300).map(|_| frame()).collect(), places: 255 }
}

pub fn all() -> Vec<Night> {
    let samples = ["quiet", "visits", "crowded"].map(sample);
    let crowds = [20, 40, 60].map(crowd);
    samples.into_iter().chain(crowds).collect()
}
