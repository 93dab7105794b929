//! Counts where the platform's float functions, which the published Rust calls, differ from the scope document's.

use recipes as plain;

use std::hint::black_box;

/// The bits of the first argument that differs, and of both results there.
#[derive(Default)]
struct Differs {
    count: u64,
    first: Option<[u32; 3]>,
    steps: u32,
}

/// Over these bit patterns, in this order; NaNs are left out.
fn differs(patterns: impl Iterator<Item = u32>, platform: fn(f32) -> f32, ours: extern "C" fn(f32) -> f32) -> Differs {
    let mut found = Differs::default();
    for pattern in patterns {
        let x = f32::from_bits(pattern);
        let [a, b] = [platform(black_box(x)).to_bits(), ours(x).to_bits()];
        if a != b && !x.is_nan() {
            found.count += 1;
            found.steps = found.steps.max(a.abs_diff(b));
            found.first = found.first.or(Some([pattern, a, b]));
        }
    }
    found
}

fn show(name: &str, found: Differs) {
    let Differs { count, first, steps } = found;
    let first = first.map_or("none".to_string(), |[x, a, b]| format!("{x:08x}: {a:08x} there, {b:08x} here"));
    println!("{name}: {count} differ, by at most {steps} steps; the first is {first}");
}

fn main() {
    let (positive, negative) = (0..=0x7f80_0000u32, 0x8000_0000..=0xff80_0000u32);
    show("exp of positive numbers", differs(positive.clone(), |x| x.exp(), plain::exp));
    show("exp of negative numbers", differs(negative, |x| x.exp(), plain::exp));
    show("powf(1.5) of positive numbers", differs(positive, |x| x.powf(black_box(1.5)), plain::powf_1_5));
    let other = |e: i32| black_box(0.9f32).powi(black_box(e)).to_bits() != plain::powi(0.9, e).to_bits();
    println!("powi of 0.9 by -10000 to 10000: {} differ", (-10000..=10000).filter(|&e| other(e)).count());
}
