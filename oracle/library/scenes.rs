//! The scenes of crates/boost_tracker_vectors: settings, starting tables and boxes out of whole numbers. docs/ORACLE.md
//! has the rules in words.

use crate::boxes::Boxes;
use crate::digest::next;
use crate::frame::{Table, needed};
use crate::verdict::State;
use jamtrack_rs::boost_tracker::boost_tracker::inside::Settings;

pub const KINDS: [&str; 17] = [
    "sleeper", "partner", "staff", "flicker", "crowd", "ties", "edges", "tiny", "flat", "far", "gaps", "low", "grid",
    "throng", "fade", "nurse", "ward",
];
const STAFF: usize = 2;
const TIES: usize = 5;
const EDGES: usize = 6;
const TINY: usize = 7;
const FLAT: usize = 8;
const FAR: usize = 9;
const GAPS: usize = 10;
const LOW: usize = 11;
const GRID: usize = 12;
const THRONG: usize = 13;
const FADE: usize = 14;
const NURSE: usize = 15;
const WARD: usize = 16;

/// The scenes 0 to 71 go through the first twelve kinds six times; eight larger ones follow, and six with labels.
pub const SCENES: usize = 86;
const LARGE: usize = 72;
pub const LABELLED: usize = 80;

/// Those that are worked once more with confidences capped: from an empty table, with gaps in the tracks, from a table
/// that holds tracks, and with refused frames.
pub const CAPPED: [usize; 6] = [0, 2, 10, 16, 25, 36];

// ---- numbers

/// 16 of a random number's bits, from 0 to 65535.
fn part(r: u64, k: u64) -> u64 {
    (r >> (16 * k)) % 65536
}

/// A float of a number below 2^24.
fn real(p: u64) -> f32 {
    (p % 16777216) as f32
}

/// The place where a coordinate is 0. Places and sizes are whole numbers of 64ths.
const MIDDLE: u64 = 8388608;

fn coordinate(place: u64) -> f32 {
    (real(place) - 8388608.0) / 64.0
}

// ---- what a kind is made of

/// Actors; the field they start in; the least size and what is added to it; the greatest speed, jitter and change of
/// size a frame; one in how many boxes is missed, 0 for none; the least score in 1024ths and what is added to it.
struct Cast {
    actors: usize,
    field: u64,
    size: u64,
    sizes: u64,
    speed: u64,
    jitter: u64,
    wobble: u64,
    missed: u64,
    low: u64,
    scores: u64,
}

fn cast(kind: usize) -> Cast {
    let row: [u64; 10] = match kind {
        0 => [1, 6400, 9600, 3200, 0, 64, 64, 6, 512, 512],
        1 => [2, 4096, 6400, 3200, 8, 128, 128, 8, 450, 574],
        2 => [4, 12800, 4800, 2400, 640, 128, 64, 10, 400, 624],
        3 => [6, 25600, 2560, 1280, 64, 64, 64, 2, 300, 724],
        4 | WARD => [20, 8192, 1536, 2048, 192, 128, 64, 10, 300, 724],
        5 => [10, 1, 2048, 0, 0, 0, 0, 5, 256, 768],
        6 => [6, 1, 1920, 0, 0, 0, 0, 0, 256, 768],
        7 => [8, 64, 0, 0, 0, 0, 0, 7, 300, 724],
        8 => [6, 6400, 3200, 1600, 32, 64, 64, 7, 300, 724],
        9 => [5, 1, 0, 0, 0, 0, 0, 7, 300, 724],
        10 => [5, 12800, 3200, 1600, 100, 64, 64, 9, 500, 524],
        11 => [12, 65535, 2560, 1280, 32, 64, 64, 4, 400, 500],
        12 => [0, 1, 2048, 0, 0, 64, 0, 0, 768, 128],
        13 => [0, 25600, 1536, 1024, 0, 64, 64, 0, 400, 624],
        NURSE => [3, 1, 6400, 0, 0, 64, 64, 12, 512, 512],
        _ => [24, 1, 4096, 0, 0, 0, 0, 0, 307, 0],
    };
    let [actors, field, size, sizes, speed, jitter, wobble, missed, low, scores] = row;
    Cast { actors: actors as usize, field, size, sizes, speed, jitter, wobble, missed, low, scores }
}

// ---- a scene

pub struct Scene {
    pub number: usize,
    pub kind: usize,
    pub frames: usize,
    pub places: usize,
    /// The tracks that the starting table holds.
    pub held: usize,
    pub settings: Settings,
    pub labelling: Labelling,
    cast: Cast,
    /// A random number for each actor, the same in all frames.
    actors: [u64; 256],
    /// The state of the generator.
    r: u64,
}

/// The labels of a scene's boxes: 1 everywhere; by actors; by actors, and another every five frames.
#[derive(Clone, Copy)]
pub enum Labelling {
    Same,
    Actors,
    Turning,
}

fn kind_of(s: usize) -> usize {
    match s {
        0..LARGE => s % 12,
        72 | 73 => GRID,
        74..78 => THRONG,
        78 | 79 => FADE,
        80..83 => NURSE,
        _ => WARD,
    }
}

fn frames_of(s: usize) -> usize {
    match s {
        0..LARGE => 20 + s * 7 % 41,
        72 => 10,
        73..78 => 20,
        78 | 79 => 60,
        80..83 => 72,
        _ => 40,
    }
}

/// The default ones, two others, and in one scene of edges none, so that a cost is the overlap.
fn lambdas(s: usize) -> [f32; 3] {
    if s == 42 {
        return [0.0; 3];
    }
    [[0.5, 0.25, 0.25], [0.75, 0.125, 1.0], [0.0, 2.0, 0.5]][s / 3 % 3]
}

fn small_settings(s: usize) -> Settings {
    let round = s / 12;
    Settings {
        det_thresh: [0.6, 0.5, 0.25, 0.75][(s + round) % 4],
        iou_threshold: if kind_of(s) == EDGES { 0.5 } else { [0.3, 0.5, 0.1][(s + round) % 3] },
        lambdas: lambdas(s),
        dlo_boost_coef: if s / 2 % 4 == 3 { 0.8 } else { 0.65 },
        max_age: [30, 3, 8, 0, 1][(s + round) % 5],
        min_hits: [3, 0, 1, 5][(s / 2 + round) % 4],
        flags: ((s * 25 + round + 3) % 64) as u64,
    }
}

fn large_settings(s: usize) -> Settings {
    Settings {
        det_thresh: 0.6,
        iou_threshold: 0.3,
        lambdas: [0.5, 0.25, 0.25],
        dlo_boost_coef: 0.65,
        max_age: [1, 30, 0, 0, 0, 0, 30, 30][s - LARGE],
        min_hits: [3, 3, 0, 0, 0, 0, 1, 1][s - LARGE],
        flags: [3, 31, 3, 31, 35, 63, 17, 25][s - LARGE],
    }
}

/// From the threshold of 0 down an unlike cost of 0 is not below the threshold, and an unlike IoU of 0 is at least it.
fn labelled_settings(s: usize) -> Settings {
    let k = s - LABELLED;
    Settings {
        det_thresh: 0.6,
        iou_threshold: [0.3, 0.3, 0.3, 0.1, 0.0, -0.5][k],
        lambdas: [0.5, 0.25, 0.25],
        dlo_boost_coef: 0.65,
        max_age: [30, 8, 3, 8, 3, 8][k],
        min_hits: [3, 0, 1, 3, 0, 1][k],
        flags: [3, 31, 31, 7, 31, 35][k],
    }
}

/// Even rounds start with no track, odd ones with two thirds of the actors, three more than them, or twice as many.
fn held_of(s: usize, actors: usize) -> usize {
    if s >= LARGE {
        return if s == 85 { actors } else { 0 };
    }
    match s / 12 {
        1 => actors - actors / 3,
        3 => actors + 3,
        5 => actors * 2,
        _ => 0,
    }
}

fn places_of(s: usize, actors: usize, held: usize) -> usize {
    if s >= LARGE || kind_of(s) == LOW {
        return 255;
    }
    match (s + s / 12) % 3 {
        0 => 255,
        1 => actors * 2 + held + 2,
        _ => actors + held + 1,
    }
}

pub fn scene(s: usize) -> Scene {
    seeded(s, 0)
}

/// The same scene with other random numbers, but for seed 0, which has those of the vectors.
pub fn seeded(s: usize, seed: u64) -> Scene {
    let kind = kind_of(s);
    let cast = cast(kind);
    let held = held_of(s, cast.actors);
    let mut r = next(next(88172645463325252 ^ ((s as u64) << 32) ^ seed));
    let mut actors = [0; 256];
    for actor in &mut actors {
        r = next(r);
        *actor = r;
    }
    Scene {
        number: s,
        kind,
        frames: frames_of(s),
        places: places_of(s, cast.actors, held),
        held,
        settings: match s {
            0..LARGE => small_settings(s),
            LARGE..LABELLED => large_settings(s),
            _ => labelled_settings(s),
        },
        labelling: match s {
            0..LABELLED => Labelling::Same,
            82 | 84 => Labelling::Turning,
            _ => Labelling::Actors,
        },
        cast,
        actors,
        r,
    }
}

// ---- boxes

/// An actor of a fading scene is seen for two frames of so many, then lost, and at last seen with a low score, off its
/// place: the similarity and the time it was lost decide about the varying threshold.
fn period(i: u64) -> u64 {
    20 + i % 8
}

fn fading(i: u64, f: u64) -> bool {
    f % period(i) >= period(i) - 6
}

impl Scene {
    /// How many actors a frame looks at: where places are few, a third of them in three frames of eight.
    fn cast_of(&self, f: usize) -> usize {
        match self.number {
            0..LARGE if self.places < 255 && f % 8 >= 5 => self.cast.actors / 3,
            0..LARGE => self.cast.actors,
            72 => [255, 1, 256, 0, 0, 254, 2, 1, 0, 0][f],
            73 => 85,
            74..78 => 60 + f * 37 % 61,
            78 | 79 => 24,
            _ => self.cast.actors,
        }
    }

    /// Left or top in 64ths: `k` 0 or 1, `a` the actor's number, `m` the moment's.
    fn place(&self, k: u64, i: u64, f: u64, a: u64, m: u64) -> u64 {
        let c = &self.cast;
        match (self.kind, k) {
            (TIES, 0) => MIDDLE + part(a, 0) % 4 * 1024,
            (TIES, _) => MIDDLE + part(a, 1) % 2 * 1024,
            (EDGES, 0) => MIDDLE + i * 12800 + (f + 1) % 2 * 640,
            (FLAT, _) if i % 2 == 0 => MIDDLE + 4194304 - part(a, k) % 256,
            (FAR, _) if i == 0 => MIDDLE - 4194304,
            (FAR, 0) => MIDDLE - 4194304 + part(a, 0) * 64 + part(m, 0) % 64,
            (FAR, _) => MIDDLE - part(a, 1) * 32,
            (LOW, 0) if i >= 4 && f % 4 == 0 => MIDDLE + part(a, 0) % 8 * 65536 + i % 3 * 896,
            (LOW, _) if i >= 4 && f % 4 == 0 => MIDDLE + part(a, 1) % 8 * 65536,
            (LOW, _) if i >= 4 => MIDDLE + part(a, k) % 8 * 65536 + part(m, k) % 1536,
            (GRID, 0) => MIDDLE + i % 17 * 2560 + part(m, 0) % 64,
            (GRID, _) => MIDDLE + i / 17 * 3840 + part(m, 1) % 64,
            (FADE, 0) => MIDDLE + i % 6 * 12800 + if fading(i, f) { part(m, 0) % 512 } else { 0 },
            (FADE, _) => MIDDLE + i / 6 * 12800,
            (NURSE, 0) if i == 2 => MIDDLE - 6400 + f % 24 * 640 + part(m, 0) % 64,
            (NURSE, 0) => MIDDLE + i * 2560 + part(m, 0) % 64,
            _ => {
                let way = f * (part(a, 2 + k) % (2 * c.speed + 1));
                MIDDLE + part(a, k) % c.field + way + part(m, k) % (c.jitter + 1) - f * c.speed
            }
        }
    }

    /// Width or height in 64ths, of the kinds that have it so.
    fn size(&self, k: u64, i: u64, f: u64, b: u64, m: u64) -> u64 {
        let c = &self.cast;
        match (self.kind, k) {
            (TIES, 1) => 2048 + part(b, 0) % 2 * 2048,
            (EDGES, 1) => 1280,
            (LOW, _) if i >= 4 && f % 4 == 0 => 1664 + k * 896,
            (FAR, _) if i == 0 => 4194304,
            (FAR, _) => 1920000 + part(b, k) * 32 + part(m, 2 + k) % 64,
            (GRID, 1) => 3072,
            (NURSE, 1) => 3200 + part(m, 3) % 64,
            _ => c.size + part(b, k) % (c.sizes + 1) + part(m, 2 + k) % (c.wobble + 1),
        }
    }

    fn length(&self, k: u64, i: u64, f: u64, b: u64, m: u64) -> f32 {
        match self.kind {
            TINY => real(1 + part(b, k) + part(m, 2 + k) % 16) / 16777216.0,
            FLAT if i % 2 == 0 => real(1 + part(b, k) % 64) / 16384.0,
            _ => real(self.size(k, i, f, b, m)) / 64.0,
        }
    }

    /// `n` is the generator's step after the moment's number.
    fn score(&self, i: u64, f: u64, n: u64) -> f32 {
        let c = &self.cast;
        match self.kind {
            EDGES => f32::from_bits(self.settings.det_thresh.to_bits() - 1 + (part(n, 0) % 3) as u32),
            TIES => real(1 + part(n, 0) % 4) / 4.0,
            LOW if i >= 4 => real(1 + part(n, 0) % 4) / 8.0,
            FADE => if fading(i, f) { 307.0 / 1024.0 } else { 0.875 },
            _ if self.kind != GRID && part(n, 2) % 64 == 0 => real(part(n, 3) % 2),
            _ => real(c.low + part(n, 0) % (c.scores + 1)) / 1024.0,
        }
    }

    fn present(&self, i: u64, f: u64, b: u64, n: u64) -> bool {
        let visiting = self.kind != STAFF || i < 2 || (f + part(b, 3)) % 20 < 8;
        let seen = match self.kind {
            GAPS => f % 24 < 10,
            FADE => f % period(i) < 2 || fading(i, f),
            // the sleeper is not seen while the nurse is over them
            NURSE if i == 0 => !(8..13).contains(&(f % 24)),
            NURSE if i == 2 => f % 24 < 20,
            _ => true,
        };
        let missed = self.cast.missed > 0 && part(n, 1) % self.cast.missed == 0;
        visiting && seen && !missed
    }

    /// The actor's random number. The strangers of a low scene, from 4 on, share one by threes, another in each frame.
    fn actor(&self, i: usize, f: usize) -> u64 {
        if self.kind == LOW && i >= 4 {
            next(next(self.actors[i / 3] ^ ((f as u64) << 24)))
        } else {
            self.actors[i]
        }
    }

    fn label(&self, i: u64, f: u64) -> u8 {
        let turn = match self.labelling {
            Labelling::Same => return 1,
            Labelling::Actors => i,
            Labelling::Turning => i + f / 5,
        };
        1 + (turn % 3) as u8
    }

    /// The boxes of frame f. Frames are asked for one after the other: each actor draws a number in each.
    pub fn sound_boxes(&mut self, f: usize) -> Boxes {
        let mut boxes = Boxes::default();
        for i in 0..self.cast_of(f) {
            self.r = next(self.r);
            let (m, n) = (self.r, next(self.r));
            let a = self.actor(i, f);
            let b = next(a);
            let (i, f) = (i as u64, f as u64);
            if self.present(i, f, b, n) {
                let corner = [0, 1].map(|k| coordinate(self.place(k, i, f, a, m)));
                let size = [0, 1].map(|k| self.length(k, i, f, b, m));
                boxes.push([corner[0], corner[1], size[0], size[1], self.score(i, f, n)], self.label(i, f));
            }
        }
        boxes
    }

    /// The same, with a bad box among them where the frame is to be refused for it.
    pub fn boxes(&mut self, f: usize) -> Boxes {
        let mut boxes = self.sound_boxes(f);
        self.damage(f, &mut boxes);
        boxes
    }

    /// Which refusal frame f provokes, in half of the scenes: 1 a bad box, 2 short output, 3 and 4 short work slices.
    pub fn damaged(&self, f: usize) -> usize {
        let s = self.number;
        if s < LARGE && (s + s / 12) % 2 == 1 && f % 16 == 7 {
            1 + (f / 16 + s / 2) % 4
        } else {
            0
        }
    }

    /// The lengths that frame f lends: up to two more than needed, or one less where it is to be refused for it and any
    /// are needed.
    pub fn lengths(&self, f: usize, held: usize, boxes: usize) -> [usize; 3] {
        let (needed, short, more) = (needed(held, boxes), self.damaged(f), [f % 3, f % 2, (f + 1) % 3]);
        std::array::from_fn(|k| if short == k + 2 && needed[k] > 0 { needed[k] - 1 } else { needed[k] + more[k] })
    }

    fn damage(&self, f: usize, boxes: &mut Boxes) {
        if self.damaged(f) == 1 && boxes.count() > 0 {
            let (middle, field) = (boxes.count() / 2, self.number % 5);
            boxes.values[middle * 5 + field] = [f32::from_bits(0x4780_0001), f32::NAN, 0.0, -1.0, 1.5][field];
        }
    }
}

// ---- starting tables

/// What places beyond the count, and cells past the places, hold.
pub const JUNK: u64 = 7;

/// p, v, A, B, C, D of a pair, but for p out of a random number.
fn pair(p: f32, v: f32, q: u64) -> [f32; 6] {
    [
        p,
        v,
        real(1 + part(q, 1) % 4096) / 64.0,
        (real(part(q, 2) % 1024) - 512.0) / 64.0,
        (real(part(q, 3) % 1024) - 512.0) / 64.0,
        real(1024 + part(next(q), 0) % 32768) / 64.0,
    ]
}

impl Scene {
    fn draw(&mut self) -> u64 {
        self.r = next(self.r);
        self.r
    }

    /// Up to 1 in both directions, for the shape a 64th of it; in scenes of edges the tracks stand still.
    fn speed(&self, way: usize, q: u64) -> f32 {
        let slow = if way == 3 { 2097152.0 } else { 32768.0 };
        if self.kind == EDGES { 0.0 } else { (real(part(q, 0)) - 32768.0) / slow }
    }

    /// The 24 floats of track i: about where actor i, or the one with its remainder, stands at first.
    fn track(&mut self, i: usize) -> Vec<f32> {
        let k = (i % self.cast.actors) as u64;
        let a = self.actors[k as usize];
        let b = next(a);
        let corner = [0, 1].map(|way| coordinate(self.place(way, k, 1, a, 0)));
        let size = [0, 1].map(|way| self.length(way, k, 1, b, 0));
        let z = [corner[0] + size[0] / 2.0, corner[1] + size[1] / 2.0, size[1], size[0] / size[1]];
        let mut pairs: Vec<[f32; 6]> = (0..4)
            .map(|way| {
                let q = self.draw();
                pair(z[way], self.speed(way, q), q)
            })
            .collect();
        if i == 0 && (self.number + self.number / 12) % 2 == 0 {
            // A predicted A below zero, with A + R above it.
            pairs[0][2..].copy_from_slice(&[1.0, -3.5, -3.0, 4.0]);
            pairs[1][2..].copy_from_slice(&[1.0, -3.5, -3.0, 4.0]);
        }
        pairs.concat()
    }

    fn track_counters(&mut self, i: usize, frames: u64) -> [u64; 4] {
        let q = self.draw();
        let since = if frames < 34 { 6 } else { 26 };
        [1 + 2 * i as u64 + part(q, 0) % 2, part(q, 1) % since, part(q, 2) % 8, part(q, 3) % (frames + 1)]
    }

    /// The table that the scene starts with.
    pub fn start(&mut self) -> Table {
        let s = self.number as u64;
        let begun = s >= 12 && s < LARGE as u64 || self.held > 0;
        let frames = if begun { 10 + s } else { 0 };
        let last = if begun { 2 * self.held as u64 + s % 5 } else { 0 };
        let mut floats = vec![JUNK as f32; self.places * 24 + self.number % 24];
        let mut counters = vec![JUNK; self.places * 4 + self.number % 4];
        // of one scene the labels are what the places go by
        let mut labels = vec![JUNK as u8; if s == 81 { 7 } else { self.places + self.number % 3 }];
        for i in 0..self.held {
            floats[24 * i..24 * i + 24].copy_from_slice(&self.track(i));
            counters[4 * i..4 * i + 4].copy_from_slice(&self.track_counters(i, frames));
            labels[i] = self.label((i % self.cast.actors) as u64, 0);
        }
        Table::new(self.settings, State { count: self.held as u64, last, frames }, floats, counters, labels)
    }
}
