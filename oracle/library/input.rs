//! A call of a frame: all that is given and lent.

use crate::boxes::Boxes;
use crate::frame::{self, Table};
use crate::verdict::State;
use jamtrack_rs::boost_tracker::boost_tracker::inside::Settings;
use std::panic::{AssertUnwindSafe, catch_unwind};

/// Of output and work slices the lengths.
#[derive(Clone)]
pub struct Input {
    pub settings: Settings,
    pub state: State,
    pub floats: Vec<f32>,
    pub counters: Vec<u64>,
    pub labels: Vec<u8>,
    pub boxes: Boxes,
    pub lengths: [usize; 3],
}

impl Input {
    pub fn new(table: &Table, boxes: &Boxes, lengths: [usize; 3]) -> Input {
        Input {
            settings: table.settings,
            state: table.state,
            floats: table.floats.clone(),
            counters: table.counters.clone(),
            labels: table.labels.clone(),
            boxes: boxes.clone(),
            lengths,
        }
    }

    pub fn table(&self) -> Table {
        Table::new(self.settings, self.state, self.floats.clone(), self.counters.clone(), self.labels.clone())
    }
}

/// Whether every intermediate value of a frame is finite, by the processor's flags: asked of the build without
/// optimisation, in which no operation is done that the text does not ask for, and whose types are its own: so settings and
/// state go as words, of the table the floats, counters and labels, and of the boxes values and labels. Where the Rust
/// panics, the flags up to there count.
pub fn finite(words: [&[u64]; 2], table: (&[f32], &[u64], &[u8]), boxes: (&[f32], &[u8])) -> bool {
    let [count, last, frames] = words[1].try_into().expect("three words of a state");
    let (floats, counters, labels) = (table.0.to_vec(), table.1.to_vec(), table.2.to_vec());
    let mut table = Table::new(Settings::of(words[0]), State { count, last, frames }, floats, counters, labels);
    let boxes = Boxes { values: boxes.0.to_vec(), labels: boxes.1.to_vec() };
    match catch_unwind(AssertUnwindSafe(|| table.update(&boxes, [usize::MAX; 3]))) {
        Ok(answer) => answer.finite,
        Err(_) => frame::finite(),
    }
}
