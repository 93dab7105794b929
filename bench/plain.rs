//! The float functions of the scope document in plain Rust, to be measured beside the proved ones.
//!
//! `exp` and `sqrt` are there twice: by whole numbers, as the document states them, and with the help of
//! the machine's own floats (`exp_f64`, `sqrt_f32`). Each is `extern "C"` and never inlined, so that a
//! call of it costs what a call of the library costs.

const L: i64 = 744261118;

#[inline(never)]
pub extern "C" fn max(a: f32, b: f32) -> f32 {
    if a.is_nan() || a < b {
        b
    } else {
        a
    }
}

#[inline(never)]
pub extern "C" fn min(a: f32, b: f32) -> f32 {
    if a.is_nan() || b < a {
        b
    } else {
        a
    }
}

/// A finite float as `digits` * 2^(`exponent`), the sign left out.
fn parts(a: f32) -> (u64, i32) {
    let field = a.to_bits() >> 23 & 0xff;
    let fraction = u64::from(a.to_bits() & 0x7f_ffff);
    if field == 0 {
        (fraction, -149)
    } else {
        (fraction | 1 << 23, field as i32 - 150)
    }
}

/// s * 2^e to the nearest f32, a tie to the even one, for an s above zero.
fn nearest(s: u64, e: i32) -> f32 {
    let top = 63 - s.leading_zeros() as i32;
    let unit = (top + e).max(-126) - 23;
    let shift = unit - e;
    let kept = if shift <= 0 {
        s << -shift
    } else {
        let kept = s >> shift;
        let rest = s & ((1 << shift) - 1);
        let half = 1 << (shift - 1);
        kept + u64::from(rest > half || rest == half && kept & 1 == 1)
    };
    let bits = ((unit + 149) as u64) << 23;
    f32::from_bits((bits + kept).min(u64::from(f32::INFINITY.to_bits())) as u32)
}

/// a * 2^30 rounded down.
fn scaled(a: f32) -> i64 {
    let (digits, exponent) = parts(a);
    let shift = -(exponent + 30);
    let (whole, cut) = if shift <= 0 {
        (digits << -shift, false)
    } else if shift < 64 {
        (digits >> shift, digits & ((1 << shift) - 1) != 0)
    } else {
        (0, digits != 0)
    };
    if a.is_sign_negative() {
        -(whole as i64) - i64::from(cut)
    } else {
        whole as i64
    }
}

fn series(r: u64) -> u64 {
    let mut t = 1u64 << 30;
    let mut sum = t;
    for k in 1..13 {
        t = t * r / (k << 30);
        sum += t;
    }
    sum
}

#[inline(never)]
pub extern "C" fn exp(a: f32) -> f32 {
    if a.is_nan() {
        return a;
    }
    if a >= 89.0 {
        return f32::INFINITY;
    }
    if a <= -104.0 {
        return 0.0;
    }
    let scaled = scaled(a);
    let (q, r) = (scaled.div_euclid(L), scaled.rem_euclid(L));
    nearest(series(r as u64), q as i32 - 30)
}

#[inline(never)]
pub extern "C" fn exp_f64(a: f32) -> f32 {
    if a.is_nan() {
        return a;
    }
    if a >= 89.0 {
        return f32::INFINITY;
    }
    if a <= -104.0 {
        return 0.0;
    }
    // each product here is exact in f64, and the cast at the end rounds once
    let scaled = (f64::from(a) * (1u64 << 30) as f64).floor() as i64;
    let (q, r) = (scaled.div_euclid(L), scaled.rem_euclid(L));
    let power_of_two = f64::from_bits(((q - 30 + 1023) as u64) << 52);
    (series(r as u64) as f64 * power_of_two) as f32
}

#[inline(never)]
pub extern "C" fn sqrt(x: f32) -> f32 {
    if x == 0.0 || x.is_nan() || x == f32::INFINITY {
        return x;
    }
    if x < 0.0 {
        return f32::NAN;
    }
    let (digits, exponent) = parts(x);
    // an even exponent, and 47 or 48 digits, so that the root has 24
    let mut shift = 24 + digits.leading_zeros() as i32 - 40;
    if (exponent - shift) % 2 != 0 {
        shift -= 1;
    }
    let n = digits << shift;
    let root = n.isqrt();
    let root = root + u64::from(n - root * root > root);
    nearest(root, (exponent - shift) / 2)
}

#[inline(never)]
pub extern "C" fn sqrt_f32(x: f32) -> f32 {
    x.sqrt()
}

#[inline(never)]
pub extern "C" fn powi(c: f32, e: i32) -> f32 {
    let mut square = c;
    let mut left = e.unsigned_abs();
    let mut power = 1.0;
    while left != 0 {
        if left & 1 == 1 {
            power *= square;
        }
        square *= square;
        left >>= 1;
    }
    if e < 0 {
        1.0 / power
    } else {
        power
    }
}

#[inline(never)]
pub extern "C" fn powf_1_5(m: f32) -> f32 {
    m * sqrt(m)
}

#[inline(never)]
pub extern "C" fn powf_1_5_f32(m: f32) -> f32 {
    m * m.sqrt()
}
