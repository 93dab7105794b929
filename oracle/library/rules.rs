//! The scope document's rules for the program trackbox, written from its words over the published tracker; nothing of
//! the port's. Records have 25 bytes, the label last: document 02.

use crate::boxes::Boxes;
use crate::frame::{Answer, Record, Table};
use crate::verdict::State;
use crate::why::told;
use jamtrack_rs::boost_tracker::boost_tracker::inside::Settings;

/// "Lends for 64 tracks and 64 boxes."
const LENT: usize = 64;

/// `det_thresh` 0.6, `iou_threshold` 0.3, `max_age` 30, `min_hits` 3 and otherwise `BoostTracker::new`'s settings.
const SETTINGS: Settings = Settings {
    det_thresh: 0.6,
    iou_threshold: 0.3,
    lambdas: [0.5, 0.25, 0.25],
    dlo_boost_coef: 0.65,
    max_age: 30,
    min_hits: 3,
    flags: 3,
};

/// A number and the record that it names, counted from 1.
struct Refused(u32, usize);

struct Trackbox {
    table: Table,
    text: String,
    /// The frame of the last record, 0 at first.
    frame: u32,
    /// The boxes of the open frame, and its first record.
    open: Boxes,
    first: usize,
    /// The frame and the box that are asked about, and what is told of them.
    asked: Option<(u64, usize)>,
    told: Option<String>,
}

impl Trackbox {
    fn new() -> Trackbox {
        let state = State { count: 0, last: 0, frames: 0 };
        let table = Table::new(SETTINGS, state, vec![0.0; LENT * 24], vec![0; LENT * 4], vec![0; LENT]);
        Trackbox { table, text: String::new(), frame: 0, open: Boxes::default(), first: 0, asked: None, told: None }
    }

    /// "Frame, id (decimal), left, top, width, height, confidence (8 lower-case hexadecimal digits of the bits)."
    fn print(&mut self, record: &Record) {
        let floats: String = record.floats.iter().map(|x| format!(" {:08x}", x.to_bits())).collect();
        self.text += &format!("{} {}{floats}\n", record.frame, record.id);
    }

    /// Works a frame; its refusal names `record`.
    fn work(&mut self, boxes: &Boxes, record: usize) -> Result<(), Refused> {
        let (frame, labels) = (self.table.state.frames + 1, self.table.labels.clone());
        let answer = self.table.update(boxes, [2 * LENT * 33, LENT * LENT, 4 * LENT * LENT]);
        if answer.refusal != 0 {
            return Err(Refused(answer.refusal, record));
        }
        if let Some((_, index)) = self.asked.filter(|asked| asked.0 == frame && self.told.is_none()) {
            self.told = Some(words(frame, index, boxes, &labels, &answer));
        }
        answer.records.iter().for_each(|r| self.print(r));
        Ok(())
    }

    /// The open frame, if there is one: its refusal names its first record.
    fn close(&mut self) -> Result<(), Refused> {
        if self.open.count() == 0 {
            return Ok(());
        }
        let boxes = std::mem::take(&mut self.open);
        self.work(&boxes, self.first)
    }

    fn record(&mut self, number: usize, bytes: &[u8]) -> Result<(), Refused> {
        let word = |k: usize| u32::from_le_bytes(bytes[4 * k..4 * k + 4].try_into().unwrap());
        let frame = word(0);
        if frame == 0 || frame < self.frame {
            return Err(Refused(42, number));
        }
        if frame - self.frame > 1000 {
            return Err(Refused(43, number));
        }
        if frame > self.frame {
            self.close()?;
            // "Skipped frame numbers are empty frames": a refusal of one names the record after it.
            for _ in self.frame + 1..frame {
                self.work(&Boxes::default(), number)?;
            }
            (self.frame, self.first) = (frame, number);
        }
        if self.open.count() == LENT {
            return Err(Refused(44, number));
        }
        self.open.push(std::array::from_fn(|k| f32::from_bits(word(k + 1))), bytes[24]);
        Ok(())
    }

    fn stream(&mut self, bytes: &[u8]) -> Result<(), Refused> {
        let records = bytes.chunks_exact(25);
        let rest = records.remainder();
        let mut number = 0;
        for record in records {
            number += 1;
            self.record(number, record)?;
        }
        if !rest.is_empty() {
            return Err(Refused(41, number + 1));
        }
        self.close()
    }
}

/// All that the program prints for these bytes.
pub fn printed(bytes: &[u8]) -> String {
    let mut program = Trackbox::new();
    if let Err(Refused(number, record)) = program.stream(bytes) {
        program.text += &format!("refused {number} record {record}\n");
    }
    program.text
}

/// Rounded to three decimals, a half up, without zeros at the end.
fn number(x: f32) -> String {
    let sign = if x < 0.0 { "-" } else { "" };
    let text = format!("{:.3}", (x.abs() as f64 * 1000.0 + 0.5).floor() / 1000.0);
    format!("{sign}{}", text.trim_end_matches('0').trim_end_matches('.'))
}

/// What the program why says of a box of an accepted frame; `labels` are those of the tracks before it.
fn words(frame: u64, index: usize, boxes: &Boxes, labels: &[u8], answer: &Answer) -> String {
    if index >= boxes.count() {
        let count = boxes.count();
        return format!("refused 81 frame {frame} box {index}: no such box; boxes in the frame: {count}\n");
    }
    let told = told(&answer.stages, index);
    let track = answer.stages.ids.iter().position(|&id| id == told.paired_id);
    let [_, intersection, union] = told.overlap;
    let share = number(if union > 0.0 { intersection / union } else { 0.0 });
    let differs = track.is_some_and(|t| labels[t] != boxes.labels[index]);
    let label = if differs { ", label differs" } else { "" };
    let overlap = format!("overlap {share} of {} over {}{label}", number(intersection), number(union));
    let fate = match told.fate {
        1 => format!("matched to id {}: {overlap}", told.id),
        2 => format!("started as id {}, in no pair", told.id),
        3 => "under the score threshold".to_string(),
        _ => format!("started as id {}, rejected as a pair with id {}: {overlap}", told.id, told.paired_id),
    };
    let [given, dlo, duo] = told.scores.map(number);
    format!("frame {frame} box {index}: {fate}; score {given}, {dlo} after the DLO boost, {duo} after the DUO boost\n")
}

/// What the program why prints for these bytes, that frame and that box; nothing where they end before the frame.
pub fn explained(bytes: &[u8], frame: u64, index: usize) -> String {
    let mut program = Trackbox::new();
    program.asked = Some((frame, index));
    let ended = program.stream(bytes);
    match (program.told, ended) {
        (Some(told), _) => told,
        (None, Err(Refused(number, record))) => format!("refused {number} record {record}\n"),
        (None, Ok(())) => String::new(),
    }
}
