// Return matrices of every kind of number that the calls treat apart.

use crate::random::Random;
use reference::leaves::pow2_scaled;

/// A `t × n` matrix of finite numbers, row by row.
pub fn draw_returns(random: &Random, n: usize, t: usize) -> Vec<f64> {
    let mut returns = match random.below(20) {
        0..=8 => realistic(random, n, t),
        9 => rounded(random, n, t),
        10 => scaled(random, n, t, 400),
        11 => columns_scaled(random, n, t),
        12 | 13 => whole(random, n, t),
        14 => equal_means(random, n, t),
        15 => entries(n, t, || random.sized(-40, 40)),
        16 => {
            // Near and below the least normal number, where scaling back rounds.
            let high = random.pick(&[-1000, -1023, -1030, -1060]);
            entries(n, t, || random.sized(-1074, high))
        }
        17 => {
            let high = random.pick(&[490, 500, 511, 1023]);
            entries(n, t, || random.sized(-20, high))
        }
        18 => {
            let exponents = random.pick(&[1500, 1500, 2047]);
            entries(n, t, || random.of_bits(exponents))
        }
        _ => entries(n, t, || random.pick(&[0.0, -0.0])),
    };
    change_some(random, &mut returns, n);
    returns
}

/// Sometimes sets a column to a constant, to nearly one or to another's multiple, or entries to 0.
fn change_some(random: &Random, returns: &mut [f64], n: usize) {
    if random.chance(4) {
        let (j, value) = (
            random.below(n),
            random.pick(&[0.0, -0.0, 1.0, 0.1, -3e-310]),
        );
        set_column(returns, n, j, |_| value);
    }
    if random.chance(3) {
        // Constant but for the last digits: near the edge of zero variance.
        let (j, step) = (random.below(n), random.pick(&[1e-9, 1e-10, 3e-11]));
        set_column(returns, n, j, |row| 1.0 + step * (row % 2) as f64);
    }
    if n > 1 && random.chance(3) {
        // One asset is another's multiple: a singular covariance.
        let (j, factor) = (1 + random.below(n - 1), random.pick(&[1.0, -2.0, 0.3]));
        for row in returns.chunks_exact_mut(n) {
            row[j] = factor * row[0];
        }
    }
    if random.chance(10) {
        for _ in 0..1 + random.below(returns.len()) {
            returns[random.below(returns.len())] = random.pick(&[0.0, -0.0]);
        }
    }
}

fn entries(n: usize, t: usize, entry: impl Fn() -> f64) -> Vec<f64> {
    (0..t * n).map(|_| entry()).collect()
}

pub fn set_column(returns: &mut [f64], n: usize, j: usize, entry: impl Fn(usize) -> f64) {
    for (row, values) in returns.chunks_exact_mut(n).enumerate() {
        values[j] = entry(row);
    }
}

/// Daily returns of some per cent: a market, each asset's part in it, and noise.
pub fn realistic(random: &Random, n: usize, t: usize) -> Vec<f64> {
    let parts: Vec<(f64, f64)> = (0..n)
        .map(|_| (random.unit() * 1.5, 0.002 + 0.02 * random.unit()))
        .collect();
    (0..t)
        .flat_map(|_| {
            let market = 0.0005 + 0.01 * random.bell();
            let row: Vec<f64> = parts
                .iter()
                .map(|(beta, noise)| beta * market + noise * random.bell())
                .collect();
            row
        })
        .collect()
}

/// The same in ten-thousandths, as they are printed.
fn rounded(random: &Random, n: usize, t: usize) -> Vec<f64> {
    let exact = realistic(random, n, t);
    exact.iter().map(|r| (r * 1e4).round() / 1e4).collect()
}

/// All times one power of two.
fn scaled(random: &Random, n: usize, t: usize, most: i32) -> Vec<f64> {
    let k = random.between(-most, most);
    let exact = realistic(random, n, t);
    exact.iter().map(|&r| pow2_scaled(r, k)).collect()
}

/// Each column times a power of two of its own.
fn columns_scaled(random: &Random, n: usize, t: usize) -> Vec<f64> {
    let most = random.pick(&[40, 300, 500]);
    let powers: Vec<i32> = (0..n).map(|_| random.between(-most, most)).collect();
    let exact = realistic(random, n, t);
    let scale = |(at, &r): (usize, &f64)| pow2_scaled(r, powers[at % n]);
    exact.iter().enumerate().map(scale).collect()
}

/// Small whole numbers, whose sums are exact and often equal.
fn whole(random: &Random, n: usize, t: usize) -> Vec<f64> {
    let most = random.pick(&[1, 4, 100]);
    entries(n, t, || f64::from(random.between(-most, most)))
}

/// Each column the first one's values, begun at another period.
fn equal_means(random: &Random, n: usize, t: usize) -> Vec<f64> {
    let first = if random.chance(50) {
        realistic(random, 1, t)
    } else {
        whole(random, 1, t)
    };
    let starts: Vec<usize> = (0..n).map(|_| random.below(t)).collect();
    let value = |at: usize| first[(at / n + starts[at % n]) % t];
    (0..t * n).map(value).collect()
}
