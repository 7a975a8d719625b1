// Given matrices: covariances, exact and nearly so, and others that reach a decomposition.

use crate::random::Random;
use reference::leaves::pow2_scaled;

/// A `side × side` matrix of finite numbers, row by row.
pub fn draw_given(random: &Random, side: usize) -> Vec<f64> {
    let periods = random.pick(&[1, side, 2 * side + 1]);
    let mut given = product(random, side, periods);
    let i = random.below(side);
    match random.below(18) {
        0..=6 => {}
        7 => scale(&mut given, random.between(-1100, 1020)),
        8 => keep_diagonal(&mut given, side),
        9 => perturb(random, &mut given, 1e-13),
        // Up to the edge of what counts as symmetric, and beyond it.
        10 => perturb(random, &mut given, random.pick(&[1e-12, 3e-12])),
        11 => {
            // One eigenvalue moved below zero, by rounding or by more.
            let part = random.pick(&[1e-16, 1e-15, 1e-14, 1e-3]);
            given[i * side + i] -= part * given[0];
        }
        12 => {
            // Three variances of 8e307 sum to infinity.
            let variance = random.pick(&[1.0, 1e-300, 1e150, 8e307]);
            given.fill(0.0);
            (0..side).for_each(|j| given[j * side + j] = variance);
        }
        13 => given.fill(random.pick(&[0.0, -0.0])),
        14 => set_cross(&mut given, side, i, random.pick(&[0.0, -0.0])),
        15 => {
            // An asset with covariances of -0 only.
            let variance = given[i * side + i];
            set_cross(&mut given, side, i, -0.0);
            given[i * side + i] = variance;
        }
        16 => {
            // Variances of 0 beside covariances that are not.
            given[i * side + i] = random.pick(&[0.0, -0.0]);
            let j = random.below(side);
            given[j * side + j] = random.pick(&[0.0, -0.0]);
        }
        _ => {
            // A far larger variance beside small ones, or a small one below zero.
            given[i * side + i] *= random.pick(&[1e20, 1e200, -1e-17]);
        }
    }
    given
}

/// `XᵀX` for `periods` rows of bell-shaped numbers: symmetric, and indefinite by rounding only.
pub fn product(random: &Random, side: usize, periods: usize) -> Vec<f64> {
    let x: Vec<f64> = (0..periods * side).map(|_| 0.02 * random.bell()).collect();
    let mut given = vec![0.0; side * side];
    for row in x.chunks_exact(side) {
        for i in 0..side {
            for j in 0..side {
                given[i * side + j] += row[i] * row[j];
            }
        }
    }
    given
}

fn scale(given: &mut [f64], k: i32) {
    for x in given {
        *x = pow2_scaled(*x, k);
        if x.is_infinite() {
            *x = f64::MAX.copysign(*x);
        }
    }
}

/// Sets row `i` and column `i`.
fn set_cross(given: &mut [f64], side: usize, i: usize, value: f64) {
    for j in 0..side {
        given[i * side + j] = value;
        given[j * side + i] = value;
    }
}

fn keep_diagonal(given: &mut [f64], side: usize) {
    for (at, x) in given.iter_mut().enumerate() {
        if at % (side + 1) != 0 {
            *x = 0.0;
        }
    }
}

/// Moves each entry by up to `part` of the first, so that the matrix is no longer symmetric.
fn perturb(random: &Random, given: &mut [f64], part: f64) {
    let most = part * given[0];
    for x in given {
        *x += most * random.unit();
    }
}
