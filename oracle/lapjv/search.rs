//! Looks for matrices of many turns or scans among small sides: random ones, each then changed cell by cell as long
//! as the published lapjv.rs counts no less. Prints the most that it found.
//!
//!     search [SECONDS]    for each side from 2 to 8; 10 without it

use jamtrack_rs::counters::{self, Counts};
use oracle::digest::next;
use oracle::matrices;
use std::time::{Duration, Instant};

struct Random(u64);

impl Random {
    fn below(&mut self, most: u64) -> u64 {
        self.0 = next(self.0);
        (self.0 >> 11) % most
    }

    /// A cost of one of five manners: small integers, the special ones, sixteenths, costs at both sides of LARGE, and
    /// powers of two.
    fn cost(&mut self, manner: u64) -> f64 {
        const SPECIAL: [f64; 12] =
            [f64::NAN, f64::INFINITY, f64::NEG_INFINITY, 1e6, 2e6, 999999.0, 0.0, 1.0, 2.0, 0.5, 3.0, 1e17];
        match manner {
            0 => self.below(5) as f64,
            1 => SPECIAL[self.below(12) as usize],
            2 => self.below(1000) as f64 / 16.0,
            3 => [2e6, 2e6, 1e6, 0.0][self.below(4) as usize] + self.below(100) as f64 / 16.0,
            _ => (self.below(1 << 40) as f64 / 1e11).exp2(),
        }
    }
}

fn counted(n: usize, cost: &[f64]) -> Counts {
    counters::take();
    jamtrack_rs::assign(&mut matrices::rows(n, cost), &mut vec![-1; n], &mut vec![-1; n]).expect("an assignment");
    counters::take()
}

struct Most {
    calls: u64,
    turns: u64,
    scans: u64,
}

impl Most {
    /// What is to grow: turns, scans, or both.
    fn score(&mut self, aim: u64, n: usize, cost: &[f64]) -> u64 {
        let counts = counted(n, cost);
        self.calls += 1;
        self.turns = self.turns.max(counts.turns);
        self.scans = self.scans.max(counts.scans);
        [counts.turns, counts.scans, counts.turns + counts.scans][aim as usize]
    }
}

/// From one random matrix upwards, until many changes in a row bring nothing.
fn climb(n: usize, random: &mut Random, most: &mut Most) {
    let (aim, manner) = (random.below(3), random.below(5));
    let mut cost: Vec<f64> = (0..n * n).map(|_| random.cost(manner)).collect();
    let mut best = most.score(aim, n, &cost);
    let mut idle = 0;
    while idle < 60 * n {
        let mut changed = cost.clone();
        for _ in 0..1 + random.below(3) {
            let other = if random.below(4) == 0 { random.below(5) } else { manner };
            changed[random.below((n * n) as u64) as usize] = random.cost(other);
        }
        let score = most.score(aim, n, &changed);
        idle = if score > best { 0 } else { idle + 1 };
        if score >= best {
            (best, cost) = (score, changed);
        }
    }
}

fn main() {
    let seconds = std::env::args().nth(1).map_or(10, |word| word.parse().expect("seconds"));
    let mut random = Random(88172645463325252);
    println!("| n | calls | turns | limit | scans | limit |");
    println!("|---|---|---|---|---|---|");
    for n in 2..=8 {
        let start = Instant::now();
        let mut most = Most { calls: 0, turns: 0, scans: 0 };
        while start.elapsed() < Duration::from_secs(seconds) {
            climb(n, &mut random, &mut most);
        }
        let Most { calls, turns, scans } = most;
        println!("| {n} | {calls} | {turns} | {} | {scans} | {} |", 2 * n * (n - 1), n * (n - 1) / 2);
    }
}
