//! Arbitrary sound tables, settings and boxes about the tracks that a table holds: overlaps, scores and distances at
//! their thresholds, equal boxes, predicted variances at or below zero, labels; and ways to spoil a call.

use crate::boxes::Boxes;
use crate::frame::Table;
use crate::input::Input;
use crate::random::Random;
use crate::verdict::State;
use jamtrack_rs::boost_tracker::boost_tracker::inside::Settings;

// ---- settings

fn lambdas(random: &Random) -> [f32; 3] {
    let usual = [0.5, 0.25, 0.25];
    let some = [random.unit(), random.unit(), random.unit()];
    let wide = [1e4, -1.0, 0.0, 100.0];
    let weighty = [random.pick(&wide), random.pick(&wide), random.pick(&wide)];
    random.pick(&[usual, usual, usual, some, weighty])
}

/// Every combination of options; the published defaults, others that users choose, and a few that no one does.
pub fn settings(random: &Random) -> Settings {
    let (a, b, c) = (random.unit(), random.unit(), random.unit());
    Settings {
        det_thresh: random.pick(&[0.6, 0.6, 0.5, 0.25, 0.75, a]),
        iou_threshold: random.pick(&[0.3, 0.3, 0.5, 0.1, b, 0.0, -0.5]),
        lambdas: lambdas(random),
        dlo_boost_coef: random.pick(&[0.65, 0.65, 0.8, 1.0, 1.5 * c]),
        max_age: random.pick(&[30, 30, 0, 1, 3, 8, u64::MAX]),
        min_hits: random.pick(&[3, 3, 0, 1, 5, u64::MAX]),
        flags: random.below(128),
    }
}

// ---- manners

/// How a table and its boxes are drawn, one for all frames of a scene.
pub struct Manner {
    settings: Settings,
    /// Of positions: apart, a crowd, whole numbers that stand still, a pile.
    places: u64,
    /// Of covariances: settled, fresh, mixed, cancelled, ones whose sums can overflow, any floats.
    covariances: u64,
    /// Of boxes: jitter, hundred thousandths, jumps, whole numbers, parts of a track whose overlap is a threshold.
    shifts: u64,
    /// Of scores: even, floats about det_thresh, hundred thousandths about it, quarters of it.
    scores: u64,
    /// Of labels: 1 everywhere, a box's mostly that of its track, any.
    labels: u64,
}

/// A label, none where one is spoiled.
fn label(random: &Random) -> u8 {
    1 + random.below(3) as u8
}

impl Manner {
    pub fn new(random: &Random) -> Manner {
        Manner {
            settings: settings(random),
            places: random.below(4),
            covariances: if random.one_in(100) { 4 + random.below(2) } else { random.below(4) },
            shifts: random.below(5),
            scores: random.below(4),
            labels: random.pick(&[0, 0, 1, 2]),
        }
    }

    fn label(&self, random: &Random) -> u8 {
        if self.labels == 0 { 1 } else { label(random) }
    }

    // ---- tables

    /// p of x, y, h, r.
    fn position(&self, i: usize, random: &Random) -> [f32; 4] {
        let shape = [random.between(10.0, 60.0), random.between(0.3, 2.0)];
        let [x, y] = [random.between(0.0, 100.0), random.between(0.0, 100.0)];
        match self.places {
            0 => [100.0 * i as f32, 0.0, shape[0], shape[1]],
            1 => [x, y, shape[0], shape[1]],
            2 => [64.0 * i as f32, 0.0, 40.0, 0.5],
            _ => [x / 16.0, y / 16.0, 32.0 + shape[0] / 8.0, 0.5 + shape[1] / 4.0],
        }
    }

    /// A, B, C, D of the pair `k`. The predicted A of a cancelled one is 0, a few steps from it, or below it.
    fn covariance(&self, k: usize, random: &Random) -> [f32; 4] {
        let [a, b, c, d] = [random.unit(), random.unit(), random.unit(), random.unit()];
        let step = 1.0 / 16777216.0;
        match self.covariances {
            0 => [0.1 + 3.0 * a, b, b, 0.01 + d],
            1 => [10.0, 0.0, 0.0, 10000.0],
            2 => [64.0 * a, 16.0 * b - 8.0, 16.0 * c - 8.0, 16.0 + 512.0 * d],
            3 => {
                let below = if k == 3 { -0.005 } else { -0.25 };
                [0.5 + random.pick(&[0.0, step, -step, 2.0 * step, below]), -0.5, -1.5, 0.5]
            }
            4 => [a, -3e38 * d, 3e38 * d, 3e38 * d],
            _ => [random.finite(), random.finite(), random.finite(), random.finite()],
        }
    }

    fn track(&self, i: usize, random: &Random) -> Vec<f32> {
        let p = self.position(i, random);
        let pair = |k: usize, random: &Random| {
            let fast = if self.places == 2 { 0.0 } else { random.pick(&[0.0, 1.0, 4.0]) };
            let speed = random.between(-1.0, 1.0) * if k == 3 { fast / 64.0 } else { fast };
            [&[p[k], speed], &self.covariance(k, random)[..]].concat()
        };
        (0..4).flat_map(|k| pair(k, random)).collect()
    }

    /// A sound table: ids rise, no counter is above the frame count, the last id at most 255 times it.
    pub fn table(&self, random: &Random) -> Table {
        let few = 1 + random.index(12);
        let places = random.pick(&[few, few, few, few, few, few, few, 20, 64, 255]);
        let some = 1 + random.below(60);
        let frames = random.pick(&[some, some, some, 1000, 2147483645]);
        let held = if random.one_in(40) { places - random.index(2) } else { random.index(few.min(places) + 1) };
        let mut floats = vec![7.0; 24 * places + random.index(24)];
        let mut counters = vec![7; 4 * places + random.index(4)];
        let few_labels = held + random.index(places - held + 1);
        let mut labels = vec![7; if random.one_in(8) { few_labels } else { places + random.index(3) }];
        let mut id = 0;
        for i in 0..held {
            floats[24 * i..24 * i + 24].copy_from_slice(&self.track(i, random));
            id += 1 + if 3 * places as u64 > 255 * frames { 0 } else { random.below(3) };
            let since = random.pick(&[0, 0, 0, 1, 2, 5, 19, 20, 21, 40]);
            let age = random.pick(&[0, 3, 6, 7, 100]);
            let counts = [since, random.below(8), age].map(|k| k.min(frames));
            counters[4 * i..4 * i + 4].copy_from_slice(&[&[id], &counts[..]].concat());
            labels[i] = self.label(random);
        }
        let state = State { count: held as u64, last: (id + random.below(3)).min(255 * frames), frames };
        Table::new(self.settings, state, floats, counters, labels)
    }

    // ---- boxes

    /// Left, top, width and height of a track where the next frame expects it.
    fn expected(table: &Table, i: usize) -> [f32; 4] {
        let p: [f32; 4] = std::array::from_fn(|k| table.floats[24 * i + 6 * k] + table.floats[24 * i + 6 * k + 1]);
        let width = if p[3] > 0.0 { p[2] * p[3] } else { 1.0 };
        [p[0] - width / 2.0, p[1] - p[2] / 2.0, width, p[2]]
    }

    /// A number about 0, `size` the box's.
    fn shift(&self, size: f32, random: &Random) -> f32 {
        match self.shifts {
            0 => size * random.between(-0.03, 0.03),
            1 => (random.below(41) as f32 - 20.0) * 1e-5,
            2 => size * random.pick(&[-0.4, -0.2, -0.1, 0.0, 0.0, 0.1, 0.2, 0.4]),
            _ => 0.0,
        }
    }

    fn shifted(&self, [left, top, width, height]: [f32; 4], random: &Random) -> [f32; 4] {
        if self.shifts == 4 {
            let part = random.pick(&[20.0, 19.0, 18.0, 17.0, 16.0, 10.0, 6.0, 2.0]);
            return [left, top, width * part / 20.0, height];
        }
        let moved = [left + self.shift(width, random), top + self.shift(height, random)];
        let grown = [width + self.shift(width, random) / 4.0, height + self.shift(height, random) / 4.0];
        let bbox = [moved[0], moved[1], grown[0], grown[1]];
        if self.shifts == 3 { bbox.map(|x| x.round()) } else { bbox }
    }

    /// In 0 to 1 where det_thresh is.
    fn score(&self, random: &Random) -> f32 {
        let limit = self.settings.det_thresh;
        let score = match self.scores {
            0 => random.unit(),
            1 => random.near(limit),
            2 => limit + (random.below(41) as f32 - 20.0) * 1e-5,
            _ => limit * random.below(6) as f32 / 4.0,
        };
        score.clamp(0.0, 1.0)
    }

    /// Boxes of one size on a stair whose steps overlap by 0.3 exactly, some of them a little off, with low scores.
    fn stair(&self, count: usize, random: &Random) -> Vec<[f32; 5]> {
        let corner = [1000.0 + 100.0 * random.below(3) as f32, -500.0];
        let step = || {
            let left = corner[0] + 14.0 * random.below(3) as f32 + random.pick(&[0.0, 0.0, 1.0, 2.0]);
            let score = self.settings.det_thresh * random.below(5) as f32 / 5.0;
            [left, corner[1], 26.0, 40.0, score.clamp(0.0, 1.0)]
        };
        (0..count).map(|_| step()).collect()
    }

    /// The label of a box about a track.
    fn label_near(&self, table: &Table, i: usize, random: &Random) -> u8 {
        if self.labels == 1 && !random.one_in(4) { table.labels[i] } else { self.label(random) }
    }

    /// A box about a track, or where none is; now and then the one before it again, with another score.
    fn near_track(&self, table: &Table, before: Option<([f32; 5], u8)>, random: &Random) -> ([f32; 5], u8) {
        let held = table.state.count as usize;
        let score = self.score(random);
        let ([left, top, width, height], label) = match before {
            Some(([a, b, c, d, _], label)) if random.one_in(4) => {
                ([a, b, c, d], if random.one_in(2) { label } else { self.label(random) })
            }
            _ if held > 0 && !random.one_in(8) => {
                let i = random.index(held);
                (self.shifted(Manner::expected(table, i), random), self.label_near(table, i, random))
            }
            _ => {
                let [x, y, h, r] = self.position(random.index(16), random);
                ([x - h * r / 2.0, y - h / 2.0, h * r, h], self.label(random))
            }
        };
        ([left, top, width, height, score], label)
    }

    /// As many as the table takes, at most.
    pub fn boxes(&self, table: &Table, random: &Random) -> Boxes {
        let held = table.state.count as usize;
        let count = random.index((table.places() - held).min(12) + 1);
        let low = if random.one_in(4) { random.index(count + 1) } else { 0 };
        let mut boxes = Boxes::default();
        self.stair(low, random).into_iter().for_each(|values| boxes.push(values, self.label(random)));
        for _ in low..count {
            let (values, label) = self.near_track(table, boxes.each().last(), random);
            boxes.push(values, label);
        }
        boxes
    }
}

/// A track and a box whose distance is the limit 13.2767, or a float beside it, by its x alone.
pub fn at_limit(random: &Random) -> (Table, Boxes) {
    let mut manner = Manner::new(random);
    manner.covariances = random.below(3);
    let mut track = manner.track(0, random);
    let around = [0.0, 0.0, 32.0, 0.5];
    (0..4).for_each(|k| track[6 * k..6 * k + 2].copy_from_slice(&[around[k], 0.0]));
    let inverse = 1.0 / (((track[2] + track[4]) + (track[3] + track[5])) + 1.0);
    let about = (13.2767 / inverse).sqrt();
    let steps = (0..16).map(|k| f32::from_bits(about.to_bits() + k - 8));
    let exact: Vec<f32> = steps.filter(|&d| d * d * inverse == 13.2767).collect();
    track[0] = if exact.is_empty() { about } else { random.pick(&exact) };
    track.resize(4 * 24, 7.0);
    let mut counters = vec![1, random.below(3), 3, 10];
    counters.resize(4 * 4, 7);
    let labels = vec![manner.label(random), 7, 7, 7];
    let table = Table::new(manner.settings, State { count: 1, last: 1, frames: 20 }, track, counters, labels);
    let values = vec![-8.0, -16.0, 16.0, 32.0, manner.score(random)];
    let labels = vec![manner.label_near(&table, 0, random)];
    (table, Boxes { values, labels })
}

// ---- spoiled calls

fn spoil_state(input: &mut Input, random: &Random) {
    let held = (input.state.count as usize).min(input.counters.len() / 4);
    let frames = input.state.frames;
    match random.below(4) {
        0 => input.state.count = random.pick(&[input.state.count + 1, 255, 256, u64::MAX]),
        1 => input.state.last = random.pick(&[0, 255 * frames, 255 * frames + 1, u64::MAX]),
        2 => input.state.frames = random.pick(&[0, 2147483646, 2147483647, u64::MAX]),
        _ if held > 0 => {
            let k = random.index(4 * held);
            input.counters[k] = random.pick(&[0, frames, frames.wrapping_add(1), u64::MAX, input.counters[k] + 1]);
        }
        _ => {}
    }
}

fn spoil_float(x: &mut f32, random: &Random) {
    let (near, any) = (random.near(65536.0), random.any());
    *x = random.pick(&[f32::NAN, f32::INFINITY, f32::NEG_INFINITY, 0.0, -0.0, -1.0, 1.5, near, -near, 3e38, any]);
}

fn spoil_settings(settings: &mut Settings, random: &Random) {
    let mut words = settings.words();
    let mut x = 0.0;
    spoil_float(&mut x, random);
    words[random.index(6)] = x.to_bits() as u64;
    *settings = Settings::of(&words);
}

/// A label that is none, or another, or missing with those behind it.
fn spoil_labels(labels: &mut Vec<u8>, random: &Random) {
    let Some(last) = labels.len().checked_sub(1) else { return };
    let k = random.index(last + 1).min(random.index(last + 1));
    match random.below(4) {
        0 => labels.truncate(k),
        1 => labels[k] = label(random),
        _ => labels[k] = random.pick(&[0, 4, 255]),
    }
}

/// Something about one of the refusals; a call can stay acceptable.
pub fn spoil(input: &mut Input, random: &Random) {
    match random.below(10) {
        0 | 1 => spoil_state(input, random),
        2 => spoil_settings(&mut input.settings, random),
        3 => {
            let more = random.pick(&[1, 5, 20, 256]);
            (0..more).for_each(|_| input.boxes.push([1.0, 2.0, 30.0, 40.0, 0.5], label(random)));
        }
        4 if !input.boxes.values.is_empty() => {
            let k = random.index(input.boxes.values.len());
            spoil_float(&mut input.boxes.values[k], random);
        }
        5 if !input.floats.is_empty() => {
            let k = random.index(input.floats.len());
            spoil_float(&mut input.floats[k], random);
        }
        6 => {
            let cut = [random.index(30), random.index(6)];
            input.floats.truncate(input.floats.len().saturating_sub(cut[0]));
            input.counters.truncate(input.counters.len().saturating_sub(cut[1]));
        }
        7 => spoil_labels(&mut input.labels, random),
        8 => spoil_labels(&mut input.boxes.labels, random),
        _ => {
            let k = random.index(3);
            input.lengths[k] = random.pick(&[input.lengths[k].saturating_sub(1 + random.index(3)), 0]);
        }
    }
}
