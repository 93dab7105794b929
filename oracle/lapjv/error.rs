//! The error that lapjv.rs names, and its text.

#[derive(Debug)]
pub enum TrackError {
    LapjvError(String),
}

impl std::fmt::Display for TrackError {
    fn fmt(&self, out: &mut std::fmt::Formatter<'_>) -> std::fmt::Result {
        let Self::LapjvError(text) = self;
        out.write_str(text)
    }
}
