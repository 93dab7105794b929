//! The counts that counters.list and passes.list add to the published lapjv.rs.

use std::sync::atomic::{AtomicU64, Ordering::Relaxed};

static TURNS: AtomicU64 = AtomicU64::new(0);
static SCANS: AtomicU64 = AtomicU64::new(0);
static PASSES: AtomicU64 = AtomicU64::new(0);

pub fn turn() {
    TURNS.fetch_add(1, Relaxed);
}

pub fn scan() {
    SCANS.fetch_add(1, Relaxed);
}

pub fn pass() {
    PASSES.fetch_add(1, Relaxed);
}

pub struct Counts {
    pub turns: u64,
    pub scans: u64,
    pub passes: u64,
}

/// What was counted since the last call.
pub fn take() -> Counts {
    Counts { turns: TURNS.swap(0, Relaxed), scans: SCANS.swap(0, Relaxed), passes: PASSES.swap(0, Relaxed) }
}
