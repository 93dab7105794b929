//! Records of the programs that replay fixed lists (docs/ORACLE.md): words of four bytes, the lowest first, which also
//! stand for the bits of floats.

use crate::boxes::Boxes;
use crate::drops::Drop;
use crate::frame::Table;

/// How wide a title is.
const TITLE: usize = 40;

/// A title as it is printed.
pub fn title(text: &str) -> String {
    assert!(text.len() <= TITLE, "a title that is too long");
    format!("{text:TITLE$}")
}

#[derive(Default)]
pub struct Records(pub Vec<u8>);

impl Records {
    pub fn words(&mut self, words: &[u64]) {
        for &word in words {
            self.0.extend(u32::try_from(word).expect("a word of four bytes").to_le_bytes());
        }
    }

    pub fn numbers(&mut self, numbers: &[usize]) {
        numbers.iter().for_each(|&k| self.words(&[k as u64]));
    }

    /// In two words, the lower first.
    pub fn long(&mut self, number: u64) {
        self.words(&[number % (1 << 32), number >> 32]);
    }

    pub fn floats(&mut self, floats: &[f32]) {
        floats.iter().for_each(|x| self.words(&[x.to_bits() as u64]));
    }

    pub fn title(&mut self, text: &str) {
        self.0.extend(title(text).bytes());
    }

    pub fn bytes(&mut self, bytes: &[u8]) {
        self.0.extend(bytes);
    }

    /// A lent table, in which 7 stands for floats and counters that are not given.
    pub fn table(&mut self, name: &str, table: &Table) {
        self.words(&[0]);
        self.words(&table_words(table));
        self.title(name);
        let [floats, counters] = given(table);
        self.floats(&table.floats[..floats]);
        self.words(&table.counters[..counters]);
        self.bytes(&table.labels);
    }

    /// A frame over the table that was lent last.
    pub fn frame(&mut self, boxes: &Boxes, lengths: [usize; 3]) {
        self.words(&[1]);
        self.numbers(&[boxes.values.len(), boxes.labels.len()]);
        self.numbers(&lengths);
        self.floats(&boxes.values);
        self.bytes(&boxes.labels);
    }

    /// Questions about boxes of such a frame, from the first on so many; the table is left.
    pub fn ask(&mut self, boxes: &Boxes, lengths: [usize; 3], [first, count]: [usize; 2]) {
        self.words(&[2]);
        self.numbers(&[boxes.values.len(), boxes.labels.len()]);
        self.numbers(&lengths);
        self.numbers(&[first, count]);
        self.floats(&boxes.values);
        self.bytes(&boxes.labels);
    }

    /// A drop over the table that was lent last.
    pub fn drop(&mut self, drop: &Drop) {
        self.numbers(&[if drop.single { 4 } else { 3 }, drop.ids.len()]);
        drop.ids.iter().for_each(|&id| self.long(id));
    }
}

/// How many floats and counters of a table are before the 7s at its end.
fn given(table: &Table) -> [usize; 2] {
    let floats = table.floats.iter().rposition(|x| x.to_bits() != 7f32.to_bits());
    let counters = table.counters.iter().rposition(|&k| k != 7);
    [floats, counters].map(|last| last.map_or(0, |k| k + 1))
}

/// Settings, state and lengths.
pub fn table_words(table: &Table) -> [u64; 17] {
    let s = table.settings.words();
    let most = |age: u64| age.min(u32::MAX as u64);
    let state = table.state;
    let [floats, counters] = given(table).map(|k| k as u64);
    let lent = [table.floats.len(), table.counters.len(), table.labels.len()].map(|k| k as u64);
    [
        s[8], s[0], s[1], s[2], s[3], s[4], s[5], most(s[6]), most(s[7]), state.count, state.last, state.frames, lent[0],
        lent[1], lent[2], floats, counters,
    ]
}
