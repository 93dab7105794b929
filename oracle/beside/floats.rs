//! The float functions: the port's beside bench/plain.rs, the scope document's recipes in whole numbers, and the
//! processor's own root. Every bit is compared, of a NaN only that it is one.

use crate::case::Case;
use recipes as plain;
use oracle::random::Random;
use crate::report::{Found, Report};
use jamtrack_rs::floats::{self, Pick};

const FUNCTIONS: [&str; 6] = ["max", "min", "sqrt", "powi", "powf_1_5", "exp"];
const EXP: usize = 5;
const SQRT: usize = 2;

/// Of the port and of the recipe; b is the second argument's bits where there is one.
fn both(function: usize, a: f32, b: u32) -> [f32; 2] {
    let second = f32::from_bits(b);
    match FUNCTIONS[function] {
        "max" => [a.larger(second), plain::max(a, second)],
        "min" => [a.smaller(second), plain::min(a, second)],
        "sqrt" => [floats::sqrt(a), plain::sqrt(a)],
        "powi" => [floats::powi(a, b as i32), plain::powi(a, b as i32)],
        "powf_1_5" => [floats::powf_1_5(a), plain::powf_1_5(a)],
        _ => [floats::exp(a), plain::exp(a)],
    }
}

fn equal(a: f32, b: f32) -> bool {
    a.to_bits() == b.to_bits() || a.is_nan() && b.is_nan()
}

fn agree(function: usize, a: f32, b: u32) -> Found {
    let [port, recipe] = both(function, a, b);
    let machine = if function == SQRT { a.sqrt() } else { recipe };
    if equal(port, recipe) && equal(port, machine) {
        return Ok(0);
    }
    Err(format!("{} of {a:?} {b:x}: {:08x}, and not {:08x}", FUNCTIONS[function], port.to_bits(), recipe.to_bits()))
}

fn case(function: usize, a: f32, b: u32) -> Case {
    Case::new("floats").numbers("function", &[function]).floats("a", &[a]).words("b", &[b as u64])
}

pub fn check(case: &Case) -> Found {
    agree(case.get_numbers("function")[0], case.get_floats("a")[0], case.get("b")[0] as u32)
}

/// Any pattern, or one near what the function turns on: squares, multiples of the logarithm of two, the ends of `exp`.
fn argument(function: usize, random: &Random) -> f32 {
    let whole = random.between(-150.0, 150.0).round();
    let special = match random.below(4) {
        0 => return random.any(),
        1 => random.between(-110.0, 95.0),
        2 if function == EXP => whole * std::f32::consts::LN_2,
        2 => whole * whole * 2f32.powi(random.below(40) as i32 - 20),
        _ => random.pick(&[89.0, -104.0, 0.0, 1.0, 0.9, -1.0, 1e-38, f32::MAX, f32::INFINITY]),
    };
    random.near(special)
}

fn second(function: usize, a: f32, random: &Random) -> u32 {
    match FUNCTIONS[function] {
        "powi" if random.one_in(4) => random.word() as u32,
        "powi" => (random.below(81) as i32 - 40) as u32,
        "max" | "min" => random.pick(&[a, -a, random.near(a), argument(function, random)]).to_bits(),
        _ => 0,
    }
}

/// A thousand calls.
pub fn run(random: &Random, report: &mut Report) {
    for _ in 0..1000 {
        let function = random.index(FUNCTIONS.len());
        let a = argument(function, random);
        let b = second(function, a, random);
        report.judge(agree(function, a, b), || case(function, a, b));
    }
}

/// `exp` and `sqrt` of every bit pattern.
pub fn all(report: &mut Report) {
    for pattern in 0..=u32::MAX {
        let a = f32::from_bits(pattern);
        for function in [EXP, SQRT] {
            report.judge(agree(function, a, 0), || case(function, a, 0));
        }
    }
}
