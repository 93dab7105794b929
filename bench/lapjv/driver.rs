//! The port's lapjv beside the published lapjv.rs, on the same matrices.
//!
//!     driver                      times of both
//!     driver once WHOSE KIND N    one call, for a tool that counts instructions; WHOSE is port or published

#[path = "../clock.rs"]
mod clock;
#[allow(dead_code)]
#[path = "../../oracle/library/digest.rs"]
mod digest;
#[path = "../../oracle/lapjv/error.rs"]
mod error;
#[allow(dead_code)]
#[path = "../../oracle/library/matrices.rs"]
mod matrices;
#[allow(warnings)]
mod lapjv {
    include!(env!("LAPJV_RS"));
}

use clock::{median, thread_time};
use std::time::Duration;

#[repr(C)]
struct LapjvAnswer {
    refusal: u32,
    turns: u64,
    scans: u64,
}

#[link(name = "bedside", kind = "static")]
extern "C" {
    fn bedside_lapjv(
        n: usize, cost: *const f64, cost_len: usize, x: *mut usize, x_len: usize, y: *mut usize, y_len: usize,
    ) -> LapjvAnswer;
}

/// A matrix as each side takes it, and room for its answer.
struct Case {
    n: usize,
    flat: Vec<f64>,
    rows: Vec<Vec<f64>>,
    x: Vec<usize>,
    y: Vec<usize>,
    signed_x: Vec<isize>,
    signed_y: Vec<isize>,
}

impl Case {
    fn new(kind: &str, n: usize) -> Case {
        let flat = matrices::matrix(kind, n);
        let rows = matrices::rows(n, &flat);
        Case { n, flat, rows, x: vec![0; n], y: vec![0; n], signed_x: vec![0; n], signed_y: vec![0; n] }
    }

    fn agrees(&self) -> bool {
        let same = |a: &[usize], b: &[isize]| a.iter().zip(b).all(|(&p, &q)| p as isize == q);
        same(&self.x, &self.signed_x) && same(&self.y, &self.signed_y)
    }
}

#[inline(never)]
#[no_mangle]
fn call_port(case: &mut Case) {
    let Case { n, flat, x, y, .. } = case;
    let answer = unsafe { bedside_lapjv(*n, flat.as_ptr(), flat.len(), x.as_mut_ptr(), *n, y.as_mut_ptr(), *n) };
    assert_eq!(answer.refusal, 0, "after {} turns and {} scans", answer.turns, answer.scans);
}

#[inline(never)]
#[no_mangle]
fn call_published(case: &mut Case) {
    lapjv::lapjv(&mut case.rows, &mut case.signed_x, &mut case.signed_y).expect("an assignment");
}

/// Nanoseconds of a call.
fn time(call: fn(&mut Case), case: &mut Case, calls: u32) -> f64 {
    let start = thread_time();
    for _ in 0..calls {
        call(case);
    }
    (thread_time() - start).as_nanos() as f64 / f64::from(calls)
}

/// Nanoseconds of a call of each, and the ratio: medians over rounds in which the two take turns.
fn medians(case: &mut Case) -> [f64; 3] {
    let one = time(call_published, case, 1).max(1.0);
    let calls = (Duration::from_millis(1).as_nanos() as f64 / one).clamp(1.0, 10_000.0) as u32;
    let mut columns: [Vec<f64>; 3] = Default::default();
    for _ in 0..61 {
        let port = time(call_port, case, calls);
        let published = time(call_published, case, calls);
        for (column, value) in columns.iter_mut().zip([port, published, port / published]) {
            column.push(value);
        }
    }
    columns.map(median)
}

fn table() {
    println!("| matrix | n | port, ns | published Rust, ns | ratio |");
    println!("|---|---|---|---|---|");
    for kind in ["uniform", "tied", "worst", "scans"] {
        for n in [16, 64, 255] {
            let mut case = Case::new(kind, n);
            let [port, published, ratio] = medians(&mut case);
            assert!(case.agrees(), "{kind} {n}: different assignments");
            println!("| {kind} | {n} | {port:.0} | {published:.0} | {ratio:.2} |");
        }
    }
}

fn main() {
    let words: Vec<String> = std::env::args().skip(1).collect();
    let words: Vec<&str> = words.iter().map(String::as_str).collect();
    match words[..] {
        [] => table(),
        ["once", "port", kind, n] => call_port(&mut Case::new(kind, n.parse().expect("a side"))),
        ["once", "published", kind, n] => call_published(&mut Case::new(kind, n.parse().expect("a side"))),
        _ => panic!("usage: driver [once port|published KIND N]"),
    }
}
