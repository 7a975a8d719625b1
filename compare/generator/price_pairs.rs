// Pairs of inputs for the law of document 02, Paper 4: prices, and the same ones with each column times
// a power of two of its own. All of them, before and after, are of size 2^-400 to 2^400.

use crate::damage::TOO_WIDE;
use crate::draw_count;
use crate::pairs::Sizes;
use crate::prices::draw_held;
use crate::random::Random;
use crate::returns::set_column;
use reference::leaves::{abs, pow2_scaled};
use reference::prices::Prices;
use reference::{MAX_PRICE_ROWS, MAX_SIDE, MIN_PRICE_ROWS};

/// A price is of size `2^-PRICE_RANGE` to `2^PRICE_RANGE`.
pub const PRICE_RANGE: i32 = 400;
/// A power is from `-MAX_POWER` to `MAX_POWER`: one end of the sizes becomes the other.
const MAX_POWER: i32 = 2 * PRICE_RANGE;

/// Powers at the ends, about half of them, and about 0.
const POWERS: [i32; 11] = [
    -MAX_POWER,
    1 - MAX_POWER,
    -1 - PRICE_RANGE,
    -PRICE_RANGE,
    -1,
    0,
    1,
    PRICE_RANGE,
    1 + PRICE_RANGE,
    MAX_POWER - 1,
    MAX_POWER,
];

pub struct PricePair {
    /// Each column's.
    pub powers: Vec<i32>,
    pub input: Prices,
    pub scaled: Prices,
}

pub fn draw_price_pair(random: &Random) -> PricePair {
    let (assets, rows) = match random.below(20) {
        0 => (MAX_SIDE, 64),
        1 => (4, 1000),
        _ => (8, 64),
    };
    let n = draw_count(random, &(1..=assets));
    let rows = draw_count(random, &(MIN_PRICE_ROWS..=rows));
    let powers: Vec<i32> = (0..n).map(|_| draw_power(random)).collect();
    let mut prices = vec![0.0; rows * n];
    for (j, &k) in powers.iter().enumerate() {
        let column = draw_column(random, rows, &Sizes::within(PRICE_RANGE, k));
        set_column(&mut prices, n, j, |row| column[row]);
    }
    if random.chance(15) {
        for _ in 0..random.pick(&[1, 1, 2, 5]) {
            let at = random.below(prices.len());
            prices[at] = -abs(prices[at]);
        }
    }
    let held = |length: usize| (0..length).map(|_| draw_held(random)).collect();
    let length = (rows - 1) * n + random.below(3);
    let mut input = Prices {
        prices,
        n,
        rows,
        returns: held(length),
    };
    if random.chance(8) {
        damage(random, &mut input);
    }
    let scale = |(at, &p): (usize, &f64)| pow2_scaled(p, powers[at % n]);
    let scaled = Prices {
        prices: input.prices.iter().enumerate().map(scale).collect(),
        // It holds something else.
        returns: held(input.returns.len()),
        ..input
    };
    PricePair {
        powers,
        input,
        scaled,
    }
}

fn draw_power(random: &Random) -> i32 {
    match random.below(4) {
        0 => random.pick(&POWERS),
        1 => random.between(-20, 20),
        _ => random.between(-MAX_POWER, MAX_POWER),
    }
}

fn draw_column(random: &Random, rows: usize, sizes: &Sizes) -> Vec<f64> {
    let unit = pow2_scaled(1.0 + random.unit(), sizes.power(random));
    let step = random.pick(&[0.0, 1e-16, 1e-9, 0.02]);
    let kind = random.below(5);
    let mut price = unit;
    let entry = |_| {
        price = match kind {
            0 => pow2_scaled(1.0, random.pick(&[sizes.low, sizes.high])),
            1 => abs(random.sized(sizes.low, sizes.high)),
            2 => random.near(unit, 2),
            _ => price * (1.0 + step * random.bell()),
        };
        sizes.fitted(price)
    };
    (0..rows).map(entry).collect()
}

/// Towards the refusals of shapes and lengths.
fn damage(random: &Random, input: &mut Prices) {
    match random.below(6) {
        0 => input.n = 0,
        1 => input.n = random.pick(&TOO_WIDE),
        2 => input.rows = random.below(MIN_PRICE_ROWS),
        3 => input.rows = MAX_PRICE_ROWS + 1,
        4 => input.prices.truncate(input.prices.len() - 1),
        _ => input.returns.truncate((input.rows - 1) * input.n - 1),
    }
}
