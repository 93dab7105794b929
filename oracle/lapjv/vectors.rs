//! Prints what crates/lapjv_vectors has to print: the published lapjv.rs, with its two counts, on the same matrices;
//! and for the calls that the port turns down, the numbers of the scope document.

use jamtrack_rs::counters;
use oracle::matrices;

fn line(head: String, answer: [u64; 3], x: &[isize], y: &[isize]) {
    let words = |s: &[isize]| s.iter().map(|k| format!(" {k}")).collect::<String>();
    println!("{head} | {} {} {} |{} |{}", answer[0], answer[1], answer[2], words(x), words(y));
}

fn replay(kind: &str, n: usize) {
    let cost = matrices::matrix(kind, n);
    let (mut x, mut y) = (vec![-1; n], vec![-1; n]);
    counters::take();
    jamtrack_rs::assign(&mut matrices::rows(n, &cost), &mut x, &mut y).expect("an assignment");
    let counts = counters::take();
    line(format!("{kind} {n} {:016x}", matrices::digest(&cost)), [0, counts.turns, counts.scans], &x, &y);
}

/// A call with slices of the given lengths: the scope document's number, and the slices unchanged.
fn refuse(n: usize, cells: usize, rows: usize, columns: usize) {
    let number = match n {
        0 => 21,
        256.. => 22,
        _ => 23,
    };
    line(format!("refused {n} {cells} {rows} {columns}"), [number, 0, 0], &vec![7; rows], &vec![8; columns]);
}

fn main() {
    for n in (1..=40).chain([64, 255]) {
        for kind in matrices::KINDS {
            replay(kind, n);
        }
    }
    refuse(0, 0, 0, 0);
    refuse(0, 16, 4, 4);
    refuse(256, 16, 4, 4);
    refuse(4294967296, 0, 0, 0);
    refuse(4, 15, 4, 4);
    refuse(4, 16, 3, 4);
    refuse(4, 16, 4, 3);
    refuse(3, 16, 3, 3);
    refuse(3, 9, 4, 3);
    refuse(3, 9, 3, 4);
    refuse(1, 0, 0, 0);
}
