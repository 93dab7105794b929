//! Prints, for the worst matrices known, the turns, scans and passes of the published lapjv.rs beside their limits; and
//! whether the passes of every matrix of crates/lapjv_vectors are within what its turns and scans allow.

use jamtrack_rs::{counters, error};
use oracle::matrices;
#[allow(warnings)]
mod lapjv {
    include!(concat!(env!("OUT_DIR"), "/passes.rs"));
}

fn counted(n: usize, cost: &[f64]) -> counters::Counts {
    counters::take();
    lapjv::lapjv(&mut matrices::rows(n, cost), &mut vec![-1; n], &mut vec![-1; n]).expect("an assignment");
    counters::take()
}

fn line(kind: &str, n: usize, cost: &[f64]) {
    let counts = counted(n, cost);
    let limits = [2 * n * (n - 1), n * (n - 1) / 2, 3 * n * n * n + 2 * n];
    let measured = [counts.turns, counts.scans, counts.passes];
    let columns = (0..3)
        .map(|k| format!("{} | {} | {:.3}", measured[k], limits[k], measured[k] as f64 / limits[k] as f64))
        .collect::<Vec<_>>();
    println!("| {kind} | {n} | {} |", columns.join(" | "));
}

/// The passes that a matrix with these turns and scans can have (docs/LIMITS.md), with n - 1 paths.
fn allowed(n: u64, counts: &counters::Counts) -> u64 {
    2 * n * n + 3 * n + (n - 1) * counts.turns + 2 * n * counts.scans + 3 * n * (n - 1)
}

fn within(kind: &str, n: usize) -> bool {
    let counts = counted(n, &matrices::matrix(kind, n));
    counts.passes <= allowed(n as u64, &counts)
}

fn main() {
    println!("| matrix | n | turns | limit | ratio | scans | limit | ratio | passes | limit | ratio |");
    println!("|---|---|---|---|---|---|---|---|---|---|---|");
    for kind in ["worst", "scans"] {
        for n in [8, 16, 32, 64, 128, 255] {
            line(kind, n, &matrices::matrix(kind, n));
        }
    }
    line("side 2", 2, &[1e17, 1.406764333660898, 2e6, 31.33281222790042]);
    let sides = || (1..=40).chain([64, 255]);
    let all = sides().all(|n| matrices::KINDS.iter().all(|kind| within(kind, n)));
    println!("passes within what turns and scans allow, in {} matrices: {all}", sides().count() * matrices::KINDS.len());
}
