//! A track as the lent table has it, of the published strack.rs: a module below it, which sees its fields.

use super::KalmanBoxTracker;

/// For x, y, h, r in turn p, v, A, B, C, D; and id, time since update, streak, age.
#[derive(Clone, Copy)]
pub struct Track {
    pub floats: [f32; 24],
    pub counters: [u64; 4],
}

pub fn from(track: &Track) -> KalmanBoxTracker {
    let mut t = KalmanBoxTracker::new(&[0.0, 0.0, 1.0, 1.0], track.counters[0] as usize);
    for i in 0..4 {
        let [p, v, a, b, c, d] = std::array::from_fn(|k| track.floats[6 * i + k]);
        let x = t.kf.state_mut().as_mut_slice();
        (x[i], x[i + 4]) = (p, v);
        t.kf.covariance[(i, i)] = a;
        t.kf.covariance[(i, i + 4)] = b;
        t.kf.covariance[(i + 4, i)] = c;
        t.kf.covariance[(i + 4, i + 4)] = d;
    }
    t.time_since_update = track.counters[1] as usize;
    t.hit_streak = track.counters[2] as usize;
    t.age = track.counters[3] as usize;
    t
}

/// The track; every entry of its covariance outside the four pairs has to be zero.
pub fn to(t: &KalmanBoxTracker) -> Track {
    let (x, p) = (t.kf.state().as_slice(), t.kf.covariance());
    let outside = |i: usize, j: usize| i % 4 != j % 4 && p[(i, j)] != 0.0;
    assert!(!(0..64).any(|k| outside(k / 8, k % 8)), "a covariance between two pairs is not zero");
    let of = |i: usize| [x[i], x[i + 4], p[(i, i)], p[(i, i + 4)], p[(i + 4, i)], p[(i + 4, i + 4)]];
    Track {
        floats: std::array::from_fn(|k| of(k / 6)[k % 6]),
        counters: [t.id, t.time_since_update, t.hit_streak, t.age].map(|k| k as u64),
    }
}

pub fn predicted(track: &Track) -> Track {
    let mut t = from(&Track { counters: [1; 4], ..*track });
    t.predict();
    to(&t)
}

/// Predicted, then corrected by a box.
pub fn corrected(track: &Track, bbox: &[f32; 4]) -> Track {
    let mut t = from(&Track { counters: [1; 4], ..*track });
    t.predict();
    t.update(bbox, 0.5);
    to(&t)
}

pub fn confidence(track: &Track, coef: f32) -> f32 {
    from(track).get_confidence(coef)
}
