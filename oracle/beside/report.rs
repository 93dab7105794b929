//! The count of what was compared, a progress line, and the files of differences.

use crate::case::Case;
use std::panic::{AssertUnwindSafe, catch_unwind};
use std::time::{Duration, Instant};

/// Files that are written at most; later differences are only counted.
const FILES: u64 = 20;

/// Above every number of a refusal.
const ANSWERS: usize = 128;

/// The number that both answered, 0 where the call was accepted; or what differs.
pub type Found = Result<u64, String>;

/// A comparison, whose panic is a difference too: of the guard zones, or of the Rust.
pub fn caught<T>(compare: impl FnOnce() -> Result<T, String>) -> Result<T, String> {
    catch_unwind(AssertUnwindSafe(compare)).unwrap_or_else(|panic| {
        let text = panic.downcast_ref::<String>().cloned();
        Err(text.or(panic.downcast_ref::<&str>().map(|s| s.to_string())).unwrap_or("a panic".to_string()))
    })
}

/// The count of one kind.
pub struct Report {
    kind: &'static str,
    folder: String,
    pub passed: u64,
    pub failed: u64,
    /// Frames that differ where a value was not finite: nothing is asked of them.
    pub not_finite: u64,
    /// Frames with row turns: those whose pairing called lapjv.
    pub turned: u64,
    /// How many calls were answered with each number.
    answers: [u64; ANSWERS],
    shown: Instant,
}

impl Report {
    pub fn new(kind: &'static str, folder: &str) -> Report {
        let (folder, shown) = (folder.to_string(), Instant::now());
        Report { kind, folder, passed: 0, failed: 0, not_finite: 0, turned: 0, answers: [0; ANSWERS], shown }
    }

    pub fn inputs(&self) -> u64 {
        self.passed + self.failed + self.not_finite
    }

    /// Counts a comparison; where it found a difference, says so and writes the inputs.
    pub fn judge(&mut self, found: Found, case: impl FnOnce() -> Case) {
        match found {
            Ok(number) => {
                self.passed += 1;
                self.answers[number as usize] += 1;
            }
            Err(what) => self.differs(&what, &case()),
        }
        if self.passed % 64 == 0 && self.shown.elapsed() > Duration::from_secs(5) {
            self.shown = Instant::now();
            eprintln!("{} so far", self.line());
        }
    }

    fn differs(&mut self, what: &str, case: &Case) {
        self.failed += 1;
        println!("{} {}: {what}", self.kind, self.inputs());
        if self.failed <= FILES {
            let file = format!("{}/{}-{}", self.folder, self.kind, self.failed);
            std::fs::write(&file, case.text()).expect("a file of inputs written");
            println!("    oracle/compare --replay {file}");
        }
    }

    /// How many were refused, by number.
    pub fn refusals(&self) -> String {
        let refused = (1..ANSWERS).filter(|&k| self.answers[k] > 0);
        let list: Vec<String> = refused.map(|k| format!("{k} in {}", self.answers[k])).collect();
        if list.is_empty() { String::new() } else { format!("; refused: {}", list.join(", ")) }
    }

    pub fn line(&self) -> String {
        let Report { kind, passed, failed, not_finite, turned, .. } = self;
        let besides = match *kind {
            "frames" => format!(", {not_finite} not finite; with row turns: {turned}"),
            "boosts" | "why" | "drops" => format!(", {not_finite} not finite"),
            _ => String::new(),
        };
        format!("{kind}: {passed} passed, {failed} failed{besides}")
    }
}
