//! The matrices of crates/lapjv_vectors, cell by cell as crates/lapjv_vectors/src/matrices.rt makes them.

use crate::digest::next;

pub const KINDS: [&str; 17] = [
    "uniform", "tied", "integers", "product", "nans", "nan_lines", "infinities", "zeros", "more_boxes",
    "more_tracks", "worst", "scans", "equal", "near_large", "wide", "any", "all_nan",
];

/// A random number from 0 up to 1.
fn unit(r: u64) -> f64 {
    (r >> 11) as f64 / 9007199254740992.0
}

/// A random whole number below `most`.
fn whole(r: u64, most: u64) -> f64 {
    ((r >> 11) % most) as f64
}

fn padded(rows: usize, columns: usize, i: usize, j: usize, similarity: f64) -> f64 {
    if i < rows && j < columns {
        -similarity - 1e-12 * i as f64
    } else {
        1e6
    }
}

fn dear(i: usize, j: usize) -> f64 {
    2e6 + (i as f64 + 1.0) * (j as f64 + 1.0)
}

fn worst(n: usize, i: usize, j: usize) -> f64 {
    if j == n - 1 {
        i as f64 / 1024.0
    } else if j == 0 {
        0.0
    } else {
        dear(i, j)
    }
}

fn scans(n: usize, i: usize, j: usize) -> f64 {
    if j == n - 1 {
        2e6
    } else {
        dear(i, j)
    }
}

fn any(r: u64) -> f64 {
    match (r >> 11) % 12 {
        0 => f64::NAN,
        1 => f64::INFINITY,
        2 => f64::NEG_INFINITY,
        3 => 0.0,
        4 => -0.0,
        5 => 1e6,
        6 => 999999.0,
        7 => 1e300,
        8 => -1e300,
        9 => 5e-324,
        _ => unit(next(r)),
    }
}

fn zero(r: u64) -> f64 {
    [0.0, -0.0, 0.25, -0.25][((r >> 11) % 4) as usize]
}

fn sprinkled(r: u64, rare: f64, other: f64) -> f64 {
    if (r >> 11) % 8 == 0 {
        rare
    } else {
        other
    }
}

fn on_lines(n: usize, i: usize, j: usize, line: f64, other: f64) -> f64 {
    if i == n / 2 || j == n / 3 {
        line
    } else {
        other
    }
}

fn cell(kind: &str, n: usize, i: usize, j: usize, r: u64) -> f64 {
    match kind {
        "uniform" => unit(r),
        "tied" => whole(r, 4) / 4.0,
        "integers" => whole(r, 21) - 10.0,
        "product" => (i as f64 + 1.0) * (j as f64 + 1.0),
        "nans" => sprinkled(r, f64::NAN, unit(next(r))),
        "nan_lines" => on_lines(n, i, j, f64::NAN, unit(r)),
        "infinities" => sprinkled(r, f64::INFINITY, sprinkled(next(r), f64::NEG_INFINITY, unit(r))),
        "zeros" => zero(r),
        "more_boxes" => padded(n, n - n / 3, i, j, whole(r, 9) / 8.0),
        "more_tracks" => padded(n - n / 3, n, i, j, whole(r, 1025) / 1024.0),
        "worst" => worst(n, i, j),
        "scans" => scans(n, i, j),
        "equal" => 0.5,
        "near_large" => 1e6 + whole(r, 5) - 2.0,
        "wide" => 1.0 / unit(r) - 1.0 / unit(next(r)),
        "any" => any(r),
        "all_nan" => f64::NAN,
        _ => panic!("no kind {kind}"),
    }
}

/// The matrix of a kind and a side, row by row.
pub fn matrix(kind: &str, n: usize) -> Vec<f64> {
    seeded(kind, n, 0)
}

/// The same with other random numbers, but for seed 0, which has those of the vectors.
pub fn seeded(kind: &str, n: usize, seed: u64) -> Vec<f64> {
    let number = KINDS.iter().position(|&name| name == kind).expect("a kind") as u64;
    let mut r = next(88172645463325252 ^ ((n as u64) << 8) ^ number ^ seed);
    (0..n * n)
        .map(|k| {
            r = next(r);
            cell(kind, n, k / n, k % n, r)
        })
        .collect()
}

/// The matrix as lapjv.rs takes it.
pub fn rows(n: usize, cost: &[f64]) -> Vec<Vec<f64>> {
    cost.chunks(n).map(|row| row.to_vec()).collect()
}

/// A checksum of the costs' bits, in which every NaN has the same.
pub fn digest(cost: &[f64]) -> u64 {
    let bits = |c: &f64| if c.is_nan() { 0x7ff8000000000000 } else { c.to_bits() };
    cost.iter().fold(1, |sum, c| next(sum ^ bits(c)))
}
