//! Filter and track: the port beside the scope document's formulas for every bit pattern, and beside the published
//! kalman_filter.rs and strack.rs while every value of the formulas is finite.

use crate::case::Case;
use oracle::digest::bits;
use crate::lent::Lent;
use crate::port::{self, Pair};
use oracle::random::Random;
use crate::report::{Found, Report, caught};
use jamtrack_rs::boost_tracker::strack::inside::{self, Track};
use jamtrack_rs::boost_tracker::strack::{convert_bbox_to_z, convert_z_to_bbox};

const NOISE: [f32; 4] = [1.0, 1.0, 10.0, 0.01];

struct Call {
    track: Track,
    bbox: [f32; 4],
    /// Noise of a correction, other than the Rust's; coefficient of a confidence.
    noise: f32,
    coef: f32,
}

// ---- the scope document's formulas, and whether each of their values is finite

fn start(z: f32) -> [f32; 6] {
    [z, 0.0, 10.0, 0.0, 0.0, 10000.0]
}

fn predict([p, v, a, b, c, d]: [f32; 6]) -> ([f32; 6], bool) {
    let halves = [a + c, b + d];
    let pair = [p + v, v, (halves[0] + halves[1]) + 1.0, halves[1], c + d, d + 0.01];
    let values = [&pair[..], &halves, &[halves[0] + halves[1]]].concat();
    (pair, values.iter().all(|x| x.is_finite()))
}

/// None where it is refused with 12: A + R is not positive and finite.
fn correct([p, v, a, b, c, d]: [f32; 6], z: f32, r: f32) -> Option<([f32; 6], bool)> {
    let sum = a + r;
    if !(sum > 0.0 && sum < f32::INFINITY) {
        return None;
    }
    let l = sum.sqrt();
    let (k, g) = ((a / l) / l, (c / l) / l);
    let (old, minus) = (1.0 - k, 0.0 - g);
    let (left, right) = (old * a, minus * a + c);
    let values = [a / l, c / l, k, g, z - p, (z - p) * k, (z - p) * g, left, right, minus * a, left * old, k * r];
    let new_a = left * old + (k * r) * k;
    let new_b = (left * minus + old * b) + (k * r) * g;
    let new_c = right * old + (g * r) * k;
    let new_d = (right * minus + (minus * b + d)) + (g * r) * g;
    let more = [left * minus, old * b, right * old, g * r, right * minus, minus * b + d, (g * r) * g, (k * r) * k];
    let pair = [p + (z - p) * k, v + (z - p) * g, new_a, new_b, new_c, new_d];
    let finite = [&values[..], &more, &pair].concat().iter().all(|x| x.is_finite());
    Some((pair, finite))
}

// ---- comparisons

fn same(what: &str, port: &[f32], other: &[f32]) -> Result<(), String> {
    let words = |s: &[f32]| s.iter().map(|&x| bits(x)).collect::<Vec<_>>();
    if words(port) == words(other) { Ok(()) } else { Err(format!("{what}: {port:?}, and not {other:?}")) }
}

fn converted(call: unsafe extern "C" fn(*const f32, *mut f32), from: [f32; 4]) -> Vec<f32> {
    let (mut given, mut out) = (Lent::new(&from, 3.5), Lent::filled(4, 7.0, 3.5));
    // SAFETY: both have the four floats that the function is proved to touch, and do not overlap.
    unsafe { call(given.start(), out.start()) };
    assert!(given.back().iter().zip(from).all(|(a, b)| a.to_bits() == b.to_bits()), "an input was written");
    out.back()
}

fn conversions(call: &Call) -> Result<(), String> {
    let z = converted(port::bedside_convert_bbox_to_z, call.bbox);
    same("convert_bbox_to_z", &z, &convert_bbox_to_z(&call.bbox))?;
    let bbox = converted(port::bedside_convert_z_to_bbox, call.bbox);
    same("convert_z_to_bbox", &bbox, &convert_z_to_bbox(&call.bbox))
}

// SAFETY, of each call below: the function is proved to accept every value, and touches no memory.
fn confidence(call: &Call) -> Result<(), String> {
    let [_, since, _, age] = call.track.counters;
    let port = unsafe { port::bedside_confidence(age, since, call.coef) };
    same("confidence", &[port], &[inside::confidence(&call.track, call.coef)])
}

fn corrected(pair: [f32; 6], z: f32, r: f32) -> Result<Option<bool>, String> {
    let answer = unsafe { port::bedside_pair_correct(Pair(pair), z, r) };
    let formula = correct(pair, z, r);
    let (number, wanted) = if let Some((new, _)) = formula { (0, new) } else { (12, pair) };
    if answer.refusal != number {
        return Err(format!("correct: {}, and not {number}", answer.refusal));
    }
    same("correct", &answer.pair.0, &wanted)?;
    Ok(formula.map(|f| f.1))
}

/// The four pairs by the formulas; the floats after a prediction and after a correction, and in which of the two every
/// value was finite. Without the second where a correction is refused.
type Followed = [Option<(Vec<f32>, bool)>; 2];

fn formulas(call: &Call, z: &[f32]) -> Result<Followed, String> {
    let (mut predicted, mut after, mut finite, mut refused) = (vec![], vec![], [true, true], false);
    for i in 0..4 {
        let pair: [f32; 6] = std::array::from_fn(|k| call.track.floats[6 * i + k]);
        let (next, whole) = predict(pair);
        same("predict", &unsafe { port::bedside_pair_predict(Pair(pair)) }.0, &next)?;
        same("new", &unsafe { port::bedside_pair_new(z[i]) }.0, &start(z[i]))?;
        corrected(pair, z[i], call.noise)?;
        let kept = corrected(next, z[i], NOISE[i])?;
        let answer = unsafe { port::bedside_pair_correct(Pair(next), z[i], NOISE[i]) };
        predicted.extend(next);
        after.extend(answer.pair.0);
        finite = [finite[0] && whole, finite[1] && whole && kept == Some(true)];
        refused |= kept.is_none();
    }
    Ok([Some((predicted, finite[0])), (!refused).then_some((after, finite[1]))])
}

fn agree(call: &Call) -> Found {
    conversions(call)?;
    confidence(call)?;
    let z = convert_bbox_to_z(&call.bbox);
    let [predicted, after] = formulas(call, &z)?;
    if let Some((floats, true)) = predicted {
        same("predict of the Rust", &floats, &inside::predicted(&call.track).floats)?;
    }
    match after {
        Some((floats, true)) if z.iter().all(|x| x.is_finite()) => {
            same("update of the Rust", &floats, &inside::corrected(&call.track, &call.bbox).floats)?;
            Ok(0)
        }
        Some(_) => Ok(0),
        None => Ok(12),
    }
}

// ---- cases

fn case(call: &Call) -> Case {
    let case = Case::new("strack").floats("track", &call.track.floats).words("counters", &call.track.counters);
    case.floats("bbox", &call.bbox).floats("others", &[call.noise, call.coef])
}

pub fn check(case: &Case) -> Found {
    let floats = case.get_floats("track").try_into().expect("24 floats");
    let counters = case.get("counters").try_into().expect("four counters");
    let others = case.get_floats("others");
    let bbox = case.get_floats("bbox").try_into().expect("four floats");
    agree(&Call { track: Track { floats, counters }, bbox, noise: others[0], coef: others[1] })
}

/// Ordinary ones, ones whose sums cancel, or any pattern.
fn float(manner: u64, random: &Random) -> f32 {
    match manner {
        0 => random.between(-100.0, 100.0),
        1 => random.between(-1.0, 10.0),
        2 => random.below(9) as f32 / 2.0 - 2.0,
        3 => random.between(-1e5, 1e5),
        _ => random.any(),
    }
}

pub fn run(random: &Random, report: &mut Report) {
    let manner = random.below(5);
    // The variances A and D above zero, but where any pattern is wanted.
    let sign = |k: usize, x: f32| if manner < 4 && [2, 5].contains(&(k % 6)) { x.abs() } else { x };
    let floats = std::array::from_fn(|k| sign(k, float(manner, random)));
    let bbox = std::array::from_fn(|_| float(manner, random));
    let counter = |random: &Random| random.pick(&[random.below(12), random.below(12), random.word()]);
    let counters = std::array::from_fn(|_| counter(random));
    let coef = random.pick(&[0.9, random.unit(), random.any()]);
    let call = Call { track: Track { floats, counters }, bbox, noise: float(manner, random), coef };
    report.judge(caught(|| agree(&call)), || case(&call));
}
