// Document 02, Paper 4: inputs of the call that takes prices. Histories of every kind of number, with
// quotients about where they overflow, vanish or stand beside 1; damages towards each refusal, several
// at once; and shapes about the limits.

use crate::damage::{put, wrong_length, NOT_FINITE, TOO_WIDE};
use crate::random::Random;
use crate::returns::set_column;
use crate::sides::FORMER_MAX_SIDE;
use crate::{draw_count, Shapes};
use reference::leaves::{abs, binary_exponent, pow2_scaled};
use reference::prices::Prices;
use reference::{MAX_PRICE_ROWS, MAX_SIDE, MIN_PRICE_ROWS};
use std::mem::swap;

/// The least and the largest price.
const LEAST: f64 = f64::from_bits(1);
const LARGEST: f64 = f64::MAX;

const NOT_POSITIVE: [f64; 7] = [
    0.0,
    -0.0,
    -1.0,
    -100.0,
    -LEAST,
    -f64::MIN_POSITIVE,
    -LARGEST,
];

const TOO_MANY_ROWS: [usize; 6] = [
    MAX_PRICE_ROWS + 1,
    MAX_PRICE_ROWS + 2,
    1 << 16,
    1 << 32,
    usize::MAX - 1,
    usize::MAX,
];

/// About the limits, and the counts that are refused first.
const ASSETS: [usize; 9] = [
    0,
    1,
    2,
    MAX_SIDE - 1,
    MAX_SIDE,
    MAX_SIDE,
    MAX_SIDE + 1,
    FORMER_MAX_SIDE,
    FORMER_MAX_SIDE + 1,
];
const ROWS: [usize; 11] = [
    0,
    1,
    MIN_PRICE_ROWS - 1,
    MIN_PRICE_ROWS,
    MIN_PRICE_ROWS + 1,
    MAX_PRICE_ROWS - 2,
    MAX_PRICE_ROWS - 1,
    MAX_PRICE_ROWS,
    MAX_PRICE_ROWS,
    MAX_PRICE_ROWS + 1,
    MAX_PRICE_ROWS + 2,
];

/// An input, damaged or not. The periods of the shapes are the rows.
pub fn draw_prices(random: &Random, shapes: &Shapes) -> Prices {
    let n = draw_count(random, &shapes.assets);
    let rows = draw_count(random, &shapes.periods);
    let mut input = draw_good(random, n, rows);
    if random.chance(45) {
        damage_some(random, &mut input);
    }
    input
}

/// Counts about the limits, with slices that fit them, mostly without any damage.
pub fn draw_about_limits(random: &Random) -> Prices {
    let mut input = draw_good(random, random.pick(&ASSETS), random.pick(&ROWS));
    if random.chance(15) {
        damage_some(random, &mut input);
    }
    input
}

/// Lengths that fit the counts, and prices that are finite and above 0. A return may be infinite.
fn draw_good(random: &Random, n: usize, rows: usize) -> Prices {
    let mut prices = draw_history(random, n, rows);
    if prices.len() > n && random.chance(60) {
        for _ in 0..random.pick(&[1, 1, 2, 5]) {
            change(random, &mut prices, n);
        }
    }
    // What the return slice holds before, and how much longer it is, must not matter.
    let needed = rows.saturating_sub(1) * n;
    let returns = (0..needed + random.below(3))
        .map(|_| draw_held(random))
        .collect();
    Prices {
        prices,
        n,
        rows,
        returns,
    }
}

/// Any bits, now and then those of a NaN.
pub fn draw_held(random: &Random) -> f64 {
    match random.below(8) {
        0 => f64::from_bits(random.bits() | f64::NAN.to_bits()),
        _ => f64::from_bits(random.bits()),
    }
}

// ---- histories

fn draw_history(random: &Random, n: usize, rows: usize) -> Vec<f64> {
    let entries = |entry: &dyn Fn() -> f64| (0..rows * n).map(|_| positive(entry())).collect();
    match random.below(20) {
        0..=5 => walks(random, n, rows),
        6 => {
            // As they are printed.
            let exact = walks(random, n, rows);
            exact.iter().map(|p| (p * 100.0).ceil() / 100.0).collect()
        }
        7..=9 => columns_scaled(random, n, rows),
        10 => {
            let value = abs(random.of_bits(2047));
            entries(&|| value)
        }
        11 => {
            // Equal but for the last bits.
            let value = positive(abs(random.of_bits(2047)));
            entries(&|| beside(random, value))
        }
        12 => entries(&|| f64::from(random.between(1, 4))),
        13 => {
            // Quotients up to 2^1023, and none above it.
            let low = random.between(-1074, 0);
            entries(&|| random.sized(low, low + 1022))
        }
        14 => {
            let (low, high) = random.pick(&[(-1074, 1023), (-600, 600), (-1074, -60)]);
            entries(&|| pow2_scaled(1.0, random.between(low, high)))
        }
        15 => entries(&|| random.of_bits(2047)),
        // Subnormal, all as likely or each power.
        16 => entries(&|| random.of_bits(random.pick(&[1, 2]))),
        17 => entries(&|| random.sized(-1074, -1000)),
        18 => entries(&|| random.sized(1000, 1023)),
        _ => {
            // About sizes where an engine may change its way.
            let power = random.pick(&[-1022, -511, -500, 500, 511, 1022]);
            let size = random.pick(&[1e-150, 1e150, pow2_scaled(1.0, power)]);
            entries(&|| random.pick(&[beside(random, size), size * (0.5 + random.unit())]))
        }
    }
}

/// Ordinary prices: each asset begins between 1 and 1,000, and moves by some per cent.
pub fn walks(random: &Random, n: usize, rows: usize) -> Vec<f64> {
    let step = 0.03 * random.unit();
    let mut row: Vec<f64> = (0..n).map(|_| 1.0 + 999.0 * random.unit()).collect();
    let mut prices = Vec::with_capacity(rows * n);
    for _ in 0..rows {
        prices.extend(&row);
        row.iter_mut()
            .for_each(|p| *p *= 1.0 + step * random.bell());
    }
    prices
}

/// Each column times a power of two of its own.
fn columns_scaled(random: &Random, n: usize, rows: usize) -> Vec<f64> {
    let most = random.pick(&[40, 510, 1000, 1030]);
    let mut prices = walks(random, n, rows);
    let powers: Vec<i32> = (0..n).map(|_| random.between(-most, most)).collect();
    for (at, p) in prices.iter_mut().enumerate() {
        *p = positive(pow2_scaled(*p, powers[at % n]));
    }
    prices
}

/// The size, within those of prices.
fn positive(x: f64) -> f64 {
    abs(x).clamp(LEAST, LARGEST)
}

/// The price or one next to it.
fn beside(random: &Random, price: f64) -> f64 {
    let bits = price.to_bits() as i64 + i64::from(random.between(-2, 2));
    f64::from_bits(bits.clamp(LEAST.to_bits() as i64, LARGEST.to_bits() as i64) as u64)
}

// ---- changes that leave prices finite and above 0

/// There is more than one row.
fn change(random: &Random, prices: &mut [f64], n: usize) {
    let at = random.below(prices.len() - n);
    match random.below(8) {
        0 => prices[at + n] = prices[at],
        1 => prices[at + n] = beside(random, prices[at]),
        2 => prices[at] = positive(random.sized(-1074, 1023)),
        3 => {
            // A whole column far away.
            let power = random.between(-1010, 1000);
            let column: Vec<f64> = prices[at % n..].iter().step_by(n).copied().collect();
            let moved = |row: usize| positive(pow2_scaled(column[row], power));
            set_column(prices, n, at % n, moved);
        }
        _ => set_quotient(random, prices, at, n),
    }
}

/// Two prices, one below the other, whose quotient is about one of those that are treated apart: the
/// largest number, those from which on minus 1 changes nothing, 1, those that minus 1 makes -1, and
/// the least.
fn set_quotient(random: &Random, prices: &mut [f64], at: usize, n: usize) {
    let power = random.pick(&[
        1023, 1023, 1023, 1022, 54, 53, 52, 1, 0, -1, -52, -53, -54, -55, -1022, -1074,
    ]);
    let part = random.pick(&[1.0, 1.5, 2.0 - f64::EPSILON, 1.0 + random.unit()]);
    let quotient = pow2_scaled(part, power);
    let exponent = binary_exponent(quotient);
    let first = positive(random.sized(-1074 - exponent.min(0), 1023 - exponent.max(0)));
    prices[at] = first;
    prices[at + n] = beside(random, positive(first * quotient));
}

// ---- damages

/// Several at once try the order of the refusals.
fn damage_some(random: &Random, input: &mut Prices) {
    for _ in 0..random.pick(&[1, 1, 1, 2, 2, 3, 4]) {
        damage(random, input);
    }
}

/// Towards a refusal; an earlier one may apply instead, or none.
fn damage(random: &Random, input: &mut Prices) {
    match random.below(20) {
        0 => input.n = 0,
        1 => input.n = random.pick(&TOO_WIDE),
        2 => input.rows = random.pick(&TOO_MANY_ROWS),
        3 => wrap(random, input),
        4 => input.rows = random.below(MIN_PRICE_ROWS),
        5 => wrong_length(random, &mut input.prices),
        6 => shorten(random, input),
        7 => shift_counts(random, input),
        8..=11 => put(random, &mut input.prices, random.pick(&NOT_FINITE)),
        12..=15 => put(random, &mut input.prices, random.pick(&NOT_POSITIVE)),
        _ => overflow(random, &mut input.prices, input.n.clamp(1, MAX_SIDE)),
    }
}

/// Counts whose product is past the largest whole number, and by its low bits fits the slices still:
/// with 8 assets or a multiple, with a multiple of 8 rows, or with no prices.
fn wrap(random: &Random, input: &mut Prices) {
    match random.below(3) {
        0 => input.rows = input.rows.wrapping_add(1 << 61),
        1 => input.n = input.n.wrapping_add(1 << 61),
        _ => {
            (input.n, input.rows) = (1 << 32, 1 << 32);
            input.prices.clear();
        }
    }
}

/// The return slice, mostly by one number too short.
fn shorten(random: &Random, input: &mut Prices) {
    match random.below(4) {
        0 => input.returns.truncate(input.needed() / 2),
        _ => input.returns.truncate(input.needed().saturating_sub(1)),
    }
}

/// Counts that do not fit the slices, or fit them in another shape.
fn shift_counts(random: &Random, input: &mut Prices) {
    match random.below(5) {
        0 => input.rows = input.rows.wrapping_add(1),
        1 => input.rows = input.rows.wrapping_sub(1),
        2 => input.n = input.n.wrapping_add(1),
        3 => input.n = input.n.wrapping_sub(1),
        _ => swap(&mut input.n, &mut input.rows),
    }
}

/// A quotient far above the largest number.
fn overflow(random: &Random, prices: &mut [f64], n: usize) {
    if prices.len() > n {
        let at = random.below(prices.len() - n);
        prices[at] = positive(random.sized(-1074, -10));
        prices[at + n] = positive(random.sized(1015, 1023));
    }
}
