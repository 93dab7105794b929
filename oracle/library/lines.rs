//! What crates/boost_tracker_vectors has to print of a table, of a frame, of a box that is asked about and of a drop.

use crate::boxes::Boxes;
use crate::digest::{Digest, bits};
use crate::frame::{Answer, Table};
use crate::records::{table_words, title};
use crate::verdict::State;
use crate::why::told;

/// What the lent output bytes and work slices hold before a call.
pub const BYTE: u8 = 7;
pub const WORK: f32 = 1.0;

fn table_digest(table: &Table) -> Digest {
    Digest::new().floats(&table.floats).words(table.counters.iter().copied()).bytes(&table.labels)
}

/// The records and the bytes behind them; a double and a float of 1 or 0 for each cell of the work slices.
fn lent_digest(answer: &Answer, [out, work64, work32]: [usize; 3]) -> Digest {
    let mut bytes: Vec<u8> = answer.records.iter().flat_map(|r| r.bytes()).collect();
    bytes.resize(out, BYTE);
    work_digest(Digest::new().bytes(&bytes), answer.refusal, work64, work32)
}

/// What a call with this refusal leaves of the work slices.
fn work_digest(before: Digest, refusal: u32, work64: usize, work32: usize) -> Digest {
    let work = if refusal == 0 { 0.0 } else { WORK };
    before.words(std::iter::repeat_n((work as f64).to_bits(), work64)).floats(&vec![work; work32])
}

/// A table that is lent: digests of its words and of its cells.
pub fn table(name: &str, table: &Table) -> String {
    let words = Digest::new().words(table_words(table).into_iter());
    format!("{} | {:016x} {:016x}", title(name), words.0, table_digest(table).0)
}

/// A frame: what it answered and left.
pub fn frame(boxes: &Boxes, table: &Table, answer: &Answer, lengths: [usize; 3]) -> String {
    let State { count, last, frames } = table.state;
    format!(
        "frame {} | {} {} | {} {} {} | {count} {last} {frames} | {:016x} {:016x} {:016x}",
        boxes.count(),
        answer.refusal,
        answer.index,
        answer.records.len(),
        answer.turns,
        answer.scans,
        Digest::new().floats(&boxes.values).bytes(&boxes.labels).0,
        table_digest(table).0,
        lent_digest(answer, lengths).0,
    )
}

/// A box of a frame that is asked about: the refusal, the frame's or 81; fate and id, the three scores, and the track that
/// it was paired with; the work slices.
pub fn asked(boxes: &Boxes, answer: &Answer, [_, work64, work32]: [usize; 3], index: usize) -> String {
    let none = answer.refusal == 0 && index >= boxes.count();
    let (refusal, at) = if none { (81, 0) } else { (answer.refusal, answer.index) };
    let text = if refusal == 0 { explained(answer, index) } else { String::new() };
    format!("box {index} | {refusal} {at}{text} | {:016x}", work_digest(Digest::new(), refusal, work64, work32).0)
}

fn explained(answer: &Answer, index: usize) -> String {
    let told = told(&answer.stages, index);
    let floats = |list: &[f32; 3]| list.map(|x| format!(" {:08x}", bits(x))).concat();
    format!(" | {} {} |{} | {}{}", told.fate, told.id, floats(&told.scores), told.paired_id, floats(&told.overlap))
}

/// A drop: what it answered and left.
pub fn drop(ids: &[u64], table: &Table, refusal: u32) -> String {
    let State { count, last, frames } = table.state;
    let given = Digest::new().words(ids.iter().copied());
    let left = table_digest(table);
    format!("drop {} | {refusal} | {count} {last} {frames} | {:016x} {:016x}", ids.len(), given.0, left.0)
}
