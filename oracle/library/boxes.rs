//! The boxes of a frame: five floats and a label each.

#[derive(Clone, Default)]
pub struct Boxes {
    /// Left, top, width, height, score.
    pub values: Vec<f32>,
    pub labels: Vec<u8>,
}

impl Boxes {
    pub fn count(&self) -> usize {
        self.values.len() / 5
    }

    pub fn push(&mut self, values: [f32; 5], label: u8) {
        self.values.extend(values);
        self.labels.push(label);
    }

    /// A box without a label byte is as one with label 0.
    pub fn label(&self, i: usize) -> u8 {
        self.labels.get(i).copied().unwrap_or(0)
    }

    /// Each with its label.
    pub fn each(&self) -> impl Iterator<Item = ([f32; 5], u8)> + '_ {
        self.values.as_chunks().0.iter().enumerate().map(|(i, &values)| (values, self.label(i)))
    }
}
