// Carried over from stats.rs of the source; see NOTICE.
// `binary_exponent`, `pow2` and `pow2_scaled` are its functions; the others are the meanings that
// document 01, 'Float leaves', and document 02, Paper 1, give to what the source calls from elsewhere.

pub fn is_finite(x: f64) -> bool {
    x.is_finite()
}

pub fn abs(x: f64) -> f64 {
    x.abs()
}

/// 1 at +0 and -1 at -0, NaN at NaN.
pub fn signum(x: f64) -> f64 {
    x.signum()
}

/// The first, replaced by a strictly larger second.
pub fn larger(first: f64, second: f64) -> f64 {
    if second > first {
        second
    } else {
        first
    }
}

/// The first, replaced by a strictly smaller second.
pub fn smaller(first: f64, second: f64) -> f64 {
    if second < first {
        second
    } else {
        first
    }
}

/// `min(y, 0)`: +0 unless `y` is below 0.
pub fn min0(y: f64) -> f64 {
    if y < 0.0 {
        y
    } else {
        0.0
    }
}

/// `max(y, 0)`: +0 unless `y` is above 0, so also for NaN.
pub fn max0(y: f64) -> f64 {
    if y > 0.0 {
        y
    } else {
        0.0
    }
}

/// `clamp(0, 1)`, which keeps NaN and -0.
pub fn clamp01(y: f64) -> f64 {
    if y < 0.0 {
        0.0
    } else if y > 1.0 {
        1.0
    } else {
        y
    }
}

/// The exponent `k` of the power of two `2^k ≤ |x| < 2^(k+1)`, 0 for 0, 1024 for infinity and NaN.
pub fn binary_exponent(x: f64) -> i32 {
    if x == 0.0 {
        return 0;
    }
    let biased = ((x.to_bits() >> 52) & 0x7ff) as i32;
    if biased == 0 {
        // Subnormal: scale it into the normal range first.
        binary_exponent(x * pow2(64)) - 64
    } else {
        biased - 1023
    }
}

/// `2^k`, for `k` in the normal range, `-1022..=1023`.
pub fn pow2(k: i32) -> f64 {
    debug_assert!((-1022..=1023).contains(&k));
    f64::from_bits(((k + 1023) as u64) << 52)
}

/// `x · 2^k`, in steps that stay in the normal range. A subnormal result can be rounded twice.
pub fn pow2_scaled(x: f64, k: i32) -> f64 {
    let step = k.clamp(-1022, 1023);
    let x = x * pow2(step);
    if step == k {
        x
    } else {
        pow2_scaled(x, k - step)
    }
}

/// Correctly rounded, ties to even; -0 at -0, NaN below 0.
pub fn sqrt(x: f64) -> f64 {
    x.sqrt()
}

pub const LN_2: f64 = f64::from_bits(0x3FE62E42FEFA39EF);
/// `LN_2` in two parts: the first has few enough bits that its product with `k` is exact.
const LN_2_HIGH: f64 = f64::from_bits(0x3FE62E42FEE00000);
const LN_2_LOW: f64 = f64::from_bits(0x3DEA39EF35793C76);

/// `e^y` for `y` not above 0. Document 01 gives it no meaning above 0; it is NaN there.
pub fn exp(y: f64) -> f64 {
    if y > 0.0 {
        return f64::NAN;
    }
    if y < -746.0 {
        return 0.0;
    }
    let k = (y / LN_2 + 0.5).floor();
    let r = (y - k * LN_2_HIGH) - k * LN_2_LOW;
    let mut p = 1.0;
    for m in (1..=13).rev() {
        p = 1.0 + (r * p) / f64::from(m);
    }
    pow2_scaled(p, k as i32)
}

/// `e^y - 1`, without cancellation near 0.
pub fn exp_m1(y: f64) -> f64 {
    if y < -0.5 {
        return exp(y) - 1.0;
    }
    let mut q = 1.0;
    for m in (2..=14).rev() {
        q = 1.0 + (y * q) / f64::from(m);
    }
    y * q
}

/// `ln x` for `x` above 0 and below 1. Document 02 gives it no meaning elsewhere; it is NaN there.
pub fn ln(x: f64) -> f64 {
    let inside = x > 0.0 && x < 1.0;
    if !inside {
        return f64::NAN;
    }
    let mut e = binary_exponent(x);
    let mut m = pow2_scaled(x, -e);
    // Brought near to 1: above 0.75, at most 1.5.
    if m > 1.5 {
        m *= 0.5;
        e += 1;
    }
    let s = (m - 1.0) / (m + 1.0);
    let z = s * s;
    let mut q = 1.0 / 25.0;
    for j in (1..=23).rev().step_by(2) {
        q = 1.0 / f64::from(j) + z * q;
    }
    let e = f64::from(e);
    (e * LN_2_LOW + (2.0 * s) * q) + e * LN_2_HIGH
}

/// The sum of the terms, from +0.0, in the order they come.
pub fn sum_of(terms: impl Iterator<Item = f64>) -> f64 {
    let mut total = 0.0;
    for term in terms {
        total += term;
    }
    total
}

/// The largest size among the terms, 0 to begin with, NaN passed over.
fn amax_of(terms: impl Iterator<Item = f64>) -> f64 {
    let mut largest = 0.0;
    for term in terms {
        largest = larger(largest, abs(term));
    }
    largest
}

pub fn sum(xs: &[f64]) -> f64 {
    sum_of(xs.iter().copied())
}

pub fn amax(xs: &[f64]) -> f64 {
    amax_of(xs.iter().copied())
}

/// Entries `j`, `j + n`, `j + 2n`, .. of the whole rows of `n` numbers in `xs`; none if `j` is not
/// a column.
fn column(xs: &[f64], n: usize, j: usize) -> impl Iterator<Item = f64> + '_ {
    let rows = if j < n { xs.len() / n } else { 0 };
    (0..rows).map(move |row| xs[row * n + j])
}

pub fn sum_column(xs: &[f64], n: usize, j: usize) -> f64 {
    sum_of(column(xs, n, j))
}

pub fn amax_column(xs: &[f64], n: usize, j: usize) -> f64 {
    amax_of(column(xs, n, j))
}

/// The bits, one pattern for every NaN: NaN equals NaN in comparisons.
pub fn bits(x: f64) -> u64 {
    if x.is_nan() {
        0x7FF8000000000000
    } else {
        x.to_bits()
    }
}

pub fn all_bits(xs: &[f64]) -> Vec<u64> {
    xs.iter().map(|&x| bits(x)).collect()
}
