//! The assignment: the port's bedside_lapjv beside the published lapjv.rs, with turns and scans.

use crate::case::Case;
use crate::lent::Lent;
use oracle::matrices;
use crate::port;
use oracle::random::Random;
use crate::report::{Found, Report, caught};
use jamtrack_rs::counters;

/// What x and y hold before the call.
const MARK: usize = 7777;

struct Call {
    n: usize,
    cost: Vec<f64>,
    /// Lengths of x and y.
    lengths: [usize; 2],
}

/// Refusal, turns, scans; x; y.
type Answer = ([u64; 3], Vec<usize>, Vec<usize>);

/// "21 side 0. 22 side above 255. 23 cost slice not n × n, or row or column slice not n long."
fn refusal(call: &Call) -> u64 {
    match call.n {
        0 => 21,
        256.. => 22,
        n if call.cost.len() != n * n || call.lengths != [n, n] => 23,
        _ => 0,
    }
}

fn rust(call: &Call) -> Answer {
    let number = refusal(call);
    if number != 0 {
        return ([number, 0, 0], vec![MARK; call.lengths[0]], vec![MARK; call.lengths[1]]);
    }
    let (mut x, mut y) = (vec![-1; call.n], vec![-1; call.n]);
    counters::take();
    jamtrack_rs::assign(&mut matrices::rows(call.n, &call.cost), &mut x, &mut y).expect("an assignment");
    let counts = counters::take();
    let whole = |s: Vec<isize>| s.into_iter().map(|k| k as usize).collect();
    ([0, counts.turns, counts.scans], whole(x), whole(y))
}

fn of_port(call: &Call) -> Answer {
    let mut cost = Lent::new(&call.cost, 3.5);
    let [mut x, mut y] = call.lengths.map(|length| Lent::filled(length, MARK, 5));
    // SAFETY: each pointer comes with its slice's length, and no two of the slices overlap.
    let a = unsafe {
        port::bedside_lapjv(call.n, cost.start(), cost.len(), x.start(), x.len(), y.start(), y.len())
    };
    let same = cost.back().iter().zip(&call.cost).all(|(a, b)| a.to_bits() == b.to_bits());
    assert!(same, "a cost was written");
    ([a.refusal as u64, a.turns, a.scans], x.back(), y.back())
}

fn agree(call: &Call) -> Found {
    let (port, rust) = (of_port(call), rust(call));
    if port == rust { Ok(port.0[0]) } else { Err(format!("side {}: {:?}, and not {:?}", call.n, port.0, rust.0)) }
}

fn case(call: &Call) -> Case {
    Case::new("lapjv").numbers("n", &[call.n]).doubles("cost", &call.cost).numbers("lengths", &call.lengths)
}

pub fn check(case: &Case) -> Found {
    let lengths = case.get_numbers("lengths").try_into().expect("two lengths");
    agree(&Call { n: case.get_numbers("n")[0], cost: case.get_doubles("cost"), lengths })
}

/// Up to 10 mostly, one in four up to 40, one in two thousand up to 255.
fn side(random: &Random) -> usize {
    match random.below(2000) {
        0 => 41 + random.index(215),
        1..500 => 11 + random.index(30),
        _ => 1 + random.index(10),
    }
}

/// A matrix of the fixed list's kinds with other numbers; any bit patterns; a few values that often tie.
fn costs(n: usize, random: &Random) -> Vec<f64> {
    let few = [random.any() as f64, random.unit() as f64, 1e6, 0.0];
    match random.below(8) {
        0 => (0..n * n).map(|_| f64::from_bits(random.word())).collect(),
        1 => (0..n * n).map(|_| random.pick(&few)).collect(),
        _ => matrices::seeded(random.pick(&matrices::KINDS), n, random.word()),
    }
}

/// One of the lengths, or the side, off.
fn spoil(call: &mut Call, random: &Random) {
    match random.below(6) {
        0 => call.n = random.pick(&[0, 256, 257, 1 << 32, usize::MAX, call.n + 1]),
        1 => call.cost.push(1.0),
        2 => drop(call.cost.pop()),
        k => call.lengths[k as usize % 2] = random.pick(&[call.n - 1, call.n + 1, call.n + 255, 0]),
    }
}

pub fn run(random: &Random, report: &mut Report) {
    let n = side(random);
    let mut call = Call { n, cost: costs(n, random), lengths: [n, n] };
    if random.one_in(32) {
        spoil(&mut call, random);
    }
    report.judge(caught(|| agree(&call)), || case(&call));
}
