//! Times the float functions of libbedside.a, their plain Rust and the C library's on the same inputs, and
//! prints a table. A figure is a median over passes in which they take turns, in nanoseconds a call; a ratio is the
//! median of the passes' ratios.

mod clock;

use clock::{median, thread_time};
use std::hint::black_box;
use std::process::exit;

const INPUTS: usize = 4096;
const SWEEPS: usize = 3; // over the inputs, in a pass
const PASSES: usize = 301;

type Unary = unsafe extern "C" fn(f32) -> f32;
type Binary = unsafe extern "C" fn(f32, f32) -> f32;
type Power = unsafe extern "C" fn(f32, i32) -> f32;

#[link(name = "bedside", kind = "static")]
extern "C" {
    fn bedside_max(a: f32, b: f32) -> f32;
    fn bedside_min(a: f32, b: f32) -> f32;
    fn bedside_sqrt(x: f32) -> f32;
    fn bedside_powi(c: f32, e: i32) -> f32;
    fn bedside_powf_1_5(m: f32) -> f32;
    fn bedside_exp(a: f32) -> f32;
}

#[link(name = "m")]
extern "C" {
    fn expf(a: f32) -> f32;
    fn sqrtf(x: f32) -> f32;
    fn powf(c: f32, e: f32) -> f32;
    fn fmaxf(a: f32, b: f32) -> f32;
    fn fminf(a: f32, b: f32) -> f32;
}

extern "C" fn libm_powi(c: f32, e: i32) -> f32 {
    unsafe { powf(c, e as f32) }
}

extern "C" fn libm_powf_1_5(m: f32) -> f32 {
    unsafe { powf(m, 1.5) }
}

extern "C" fn nothing(x: f32) -> f32 {
    x
}

/// Numbers spread evenly, the same in each run.
struct Spread(u64);

impl Spread {
    fn bits(&mut self) -> u32 {
        self.0 = self
            .0
            .wrapping_mul(6364136223846793005)
            .wrapping_add(1442695040888963407);
        (self.0 >> 32) as u32
    }

    fn between(&mut self, low: f64, high: f64) -> f32 {
        (low + (high - low) * f64::from(self.bits()) / 4294967296.0) as f32
    }

    fn positive(&mut self) -> f32 {
        f32::from_bits(self.bits() % f32::INFINITY.to_bits())
    }
}

/// The ways of writing one function: the port, plain Rust, Rust with the machine's floats, the C library.
type Ways<F> = [Option<F>; 4];

/// Times each way over the inputs, pass by pass in turn, and prints the row. `call` makes one call.
fn row<F: Copy, X: Copy>(name: &str, inputs: &[X], ways: Ways<F>, call: impl Fn(F, X) -> f32) {
    let mut times: [Vec<f64>; 4] = Default::default();
    let mut results = vec![vec![0.0f32; inputs.len()]; 4];
    for _ in 0..PASSES {
        for (way, function) in ways.iter().enumerate() {
            let Some(function) = *function else { continue };
            let function = black_box(function);
            let started = thread_time();
            for _ in 0..SWEEPS {
                for (result, &x) in results[way].iter_mut().zip(inputs) {
                    *result = call(function, x);
                }
                black_box(&results[way]);
            }
            let took = (thread_time() - started).as_nanos() as f64;
            times[way].push(took / (SWEEPS * inputs.len()) as f64);
        }
    }
    for way in [1, 2] {
        if ways[way].is_some() {
            agree(name, &results[0], &results[way]);
        }
    }
    print!("| {name} |");
    for way in &times {
        print!(" {} |", figure(way.clone()));
    }
    for rival in &times[1..] {
        print!(" {} |", figure(times[0].iter().zip(rival).map(|(port, rival)| port / rival).collect()));
    }
    println!();
}

/// The median; nothing where there is no such way.
fn figure(s: Vec<f64>) -> String {
    if s.is_empty() { String::new() } else { format!("{:.2}", median(s)) }
}

/// The port and a plain writing give the same bits, all NaNs taken as one.
fn agree(name: &str, port: &[f32], plain: &[f32]) {
    let same = |(a, b): (&f32, &f32)| a.to_bits() == b.to_bits() || (a.is_nan() && b.is_nan());
    if !port.iter().zip(plain).all(same) {
        eprintln!("bench: {name}: the port and the plain Rust differ");
        exit(1);
    }
}

fn unary(name: &str, inputs: &[f32], ways: Ways<Unary>) {
    row(name, inputs, ways, |f, x| unsafe { f(x) });
}

fn binary(name: &str, inputs: &[(f32, f32)], ways: Ways<Binary>) {
    row(name, inputs, ways, |f, (a, b)| unsafe { f(a, b) });
}

fn power(name: &str, inputs: &[(f32, i32)], ways: Ways<Power>) {
    row(name, inputs, ways, |f, (c, e)| unsafe { f(c, e) });
}

fn main() {
    let mut spread = Spread(1);
    let wide: Vec<f32> = (0..INPUTS).map(|_| spread.between(-104.0, 89.0)).collect();
    let near: Vec<f32> = (0..INPUTS).map(|_| spread.between(-10.0, 0.0)).collect();
    let positive: Vec<f32> = (0..INPUTS).map(|_| spread.positive()).collect();
    let areas: Vec<f32> = (0..INPUTS).map(|_| spread.between(0.0, 100.0)).collect();
    let ages: Vec<(f32, i32)> = (0..INPUTS)
        .map(|_| (0.9, (spread.bits() % 32) as i32 - 1))
        .collect();
    let pairs: Vec<(f32, f32)> = (0..INPUTS)
        .map(|_| (spread.between(-1.0, 1.0), spread.between(-1.0, 1.0)))
        .collect();

    println!("| ns a call | port | plain | machine | libm | port / plain | port / machine | port / libm |");
    println!("|---|---|---|---|---|---|---|---|");
    unary("an empty call", &wide, [Some(nothing), None, None, None]);
    let exp: Ways<Unary> = [
        Some(bedside_exp),
        Some(plain::exp),
        Some(plain::exp_f64),
        Some(expf),
    ];
    unary("exp, −104 to 89", &wide, exp);
    unary("exp, −10 to 0", &near, exp);
    let sqrt: Ways<Unary> = [
        Some(bedside_sqrt),
        Some(plain::sqrt),
        Some(plain::sqrt_f32),
        Some(sqrtf),
    ];
    unary("sqrt, all above 0", &positive, sqrt);
    unary("sqrt, 0 to 100", &areas, sqrt);
    let powf: Ways<Unary> = [
        Some(bedside_powf_1_5),
        Some(plain::powf_1_5),
        Some(plain::powf_1_5_f32),
        Some(libm_powf_1_5),
    ];
    unary("powf 1.5, 0 to 100", &areas, powf);
    let powi: Ways<Power> = [Some(bedside_powi), Some(plain::powi), None, Some(libm_powi)];
    power("powi of 0.9 by −1 to 30", &ages, powi);
    binary(
        "max",
        &pairs,
        [Some(bedside_max), Some(plain::max), None, Some(fmaxf)],
    );
    binary(
        "min",
        &pairs,
        [Some(bedside_min), Some(plain::min), None, Some(fminf)],
    );
}
