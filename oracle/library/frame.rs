//! A lent table and the published tracker that works its frames.

use crate::boxes::Boxes;
use crate::verdict::{Call, State, capacity, drop_verdict, verdict};
use jamtrack_rs::boost_tracker::boost_tracker::BoostTracker;
use jamtrack_rs::boost_tracker::boost_tracker::inside::{self, Settings};
use jamtrack_rs::boost_tracker::strack::inside::Track;
use jamtrack_rs::counters;
use jamtrack_rs::labels;
use jamtrack_rs::object::Object;
use jamtrack_rs::rect::Rect;
use jamtrack_rs::stages::{self, Stages};
use std::collections::HashMap;

/// The flag of the port's setting cap_confidence, of which the published tracker knows nothing.
pub const CAP: u64 = 64;

/// An emitted track: frame, id, left, top, width, height, confidence, and label.
pub struct Record {
    pub frame: u32,
    pub id: u64,
    pub floats: [f32; 5],
    pub label: u8,
}

impl Record {
    /// As the output has it.
    pub fn bytes(&self) -> Vec<u8> {
        let floats = self.floats.map(|x| x.to_le_bytes()).concat();
        [&self.frame.to_le_bytes()[..], &self.id.to_le_bytes(), &floats, &[self.label]].concat()
    }

    /// As the setting cap_confidence has it: "an emitted confidence above 1 is written as 1".
    fn capped(self) -> Record {
        let [left, top, width, height, confidence] = self.floats;
        if confidence > 1.0 { Record { floats: [left, top, width, height, 1.0], ..self } } else { self }
    }
}

pub struct Answer {
    pub refusal: u32,
    pub index: usize,
    pub records: Vec<Record>,
    pub turns: u64,
    pub scans: u64,
    /// No operation of the frame raised IEEE 754's flags of an invalid one, of a division by zero or of an overflow.
    pub finite: bool,
    /// Of an accepted frame.
    pub stages: Stages,
}

pub struct Table {
    pub settings: Settings,
    pub state: State,
    pub floats: Vec<f32>,
    pub counters: Vec<u64>,
    pub labels: Vec<u8>,
    tracker: Option<BoostTracker>,
}

/// Invalid operation, division by zero and overflow among the sticky flags of x86-64's control word.
const NOT_FINITE: u32 = 0b1101;

fn flags() -> u32 {
    let mut word = 0u32;
    // SAFETY: stores the control word to a variable of its size.
    unsafe { std::arch::asm!("stmxcsr [{}]", in(reg) &mut word) };
    word
}

/// None of the three was raised since they were cleared, at the last frame's start.
pub fn finite() -> bool {
    flags() & NOT_FINITE == 0
}

fn clear_flags() {
    let word = flags() & !0b111111;
    // SAFETY: loads the control word with its own value, but for the sticky flags.
    unsafe { std::arch::asm!("ldmxcsr [{}]", in(reg) &word) };
}

/// What output and work slices have to have.
pub fn needed(held: usize, boxes: usize) -> [usize; 3] {
    let n = held.max(boxes);
    [33 * (held + boxes), n * n, 4 * n * n]
}

impl Table {
    pub fn new(settings: Settings, state: State, floats: Vec<f32>, counters: Vec<u64>, labels: Vec<u8>) -> Table {
        Table { settings, state, floats, counters, labels, tracker: None }
    }

    pub fn places(&self) -> usize {
        capacity(&self.floats, &self.counters, &self.labels)
    }

    fn tracks(&self) -> Vec<Track> {
        let places = self.floats.chunks_exact(24).zip(self.counters.chunks_exact(4));
        places
            .take(self.state.count as usize)
            .map(|(f, c)| Track { floats: f.try_into().unwrap(), counters: c.try_into().unwrap() })
            .collect()
    }

    /// The tracker, started from the table at the first accepted frame.
    fn tracker(&mut self) -> &mut BoostTracker {
        if self.tracker.is_none() {
            let mut t = inside::tracker(&self.settings);
            inside::start(&mut t, &self.tracks(), self.state.last, self.state.frames);
            self.tracker = Some(t);
        }
        self.tracker.as_mut().unwrap()
    }

    /// The tracker's tracks in the first places, zeros in the others; cells past the places as they were.
    fn store(&mut self, of_ids: &HashMap<usize, u8>) {
        let (tracks, last, frames) = inside::table(self.tracker.as_ref().unwrap());
        let places = self.places();
        self.floats[..24 * places].fill(0.0);
        self.counters[..4 * places].fill(0);
        self.labels[..places].fill(0);
        for (i, t) in tracks.iter().enumerate() {
            self.floats[24 * i..24 * i + 24].copy_from_slice(&t.floats);
            self.counters[4 * i..4 * i + 4].copy_from_slice(&t.counters);
            self.labels[i] = of_ids[&(t.counters[0] as usize)];
        }
        self.state = State { count: tracks.len() as u64, last, frames };
    }

    /// The ids of the held tracks.
    pub fn ids(&self) -> Vec<u64> {
        self.counters.chunks_exact(4).take(self.state.count as usize).map(|track| track[0]).collect()
    }

    fn labels_of_ids(&self) -> HashMap<usize, u8> {
        self.ids().into_iter().map(|id| id as usize).zip(self.labels.iter().copied()).collect()
    }

    /// The labels of a frame, for the rule in the published files.
    fn give_labels(&self, boxes: &Boxes) {
        labels::give_frame(&boxes.labels, self.labels_of_ids().into_iter());
    }

    /// A drop of the tracks with these ids: the number why it is turned away, 0 where it is not. "An empty set changes
    /// nothing"; otherwise the same tracks leave the Rust's list, and the table is what that list is then.
    pub fn forget(&mut self, ids: &[u64]) -> u32 {
        let refusal = drop_verdict(self.state, self.places(), &self.counters, &self.labels, ids);
        if refusal == 0 && !ids.is_empty() {
            let of_ids = self.labels_of_ids();
            inside::forget(self.tracker(), ids);
            self.store(&of_ids);
        }
        refusal
    }

    /// A frame with these boxes, and memory lent in these lengths.
    pub fn update(&mut self, boxes: &Boxes, [out, work64, work32]: [usize; 3]) -> Answer {
        let call = Call {
            settings: &self.settings,
            state: self.state,
            floats: &self.floats,
            counters: &self.counters,
            labels: &self.labels,
            boxes,
            out,
            work64,
            work32,
        };
        let (refusal, index) = verdict(&call);
        if refusal != 0 {
            return Answer { refusal, index, records: vec![], turns: 0, scans: 0, finite: true, stages: Stages::default() };
        }
        let object = |[left, top, width, height, score]: [f32; 5]| {
            Object::new(Rect::new(left, top, width, height), score, None)
        };
        let objects: Vec<Object> = boxes.each().map(|(values, _)| object(values)).collect();
        self.give_labels(boxes);
        let tracker = self.tracker();
        counters::take();
        clear_flags();
        let emitted = tracker.update(&objects).expect("the Rust's update gives no error");
        let finite = finite();
        let (counts, stages, of_ids) = (counters::take(), stages::take(), labels::take());
        self.store(&of_ids);
        let frame = self.state.frames as u32;
        let record = |o: &Object| {
            let id = o.get_track_id().expect("an id");
            let floats = [o.get_x(), o.get_y(), o.get_width(), o.get_height(), o.get_prob()];
            Record { frame, id: id as u64, floats, label: of_ids[&id] }
        };
        let cap = self.settings.flags & CAP != 0;
        let records = emitted.iter().map(record).map(|r| if cap { r.capped() } else { r }).collect();
        Answer { refusal: 0, index: 0, records, turns: counts.turns, scans: counts.scans, finite, stages }
    }
}
