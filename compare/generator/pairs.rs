// Pairs of inputs for the power-of-two law, within document 01's 'Scaling ranges' and document 02's
// bound for decay factors: an input, and the same one with its returns and threshold times 2^k, its
// given matrix and regularization times 2^2k.

use crate::damage::{BAD_FACTORS, TOO_WIDE};
use crate::given::product;
use crate::random::Random;
use crate::returns::set_column;
use crate::settings::{draw_limit, draw_target, LARGEST_FACTOR};
use crate::{draw_call, draw_count};
use reference::covariance::{Decay, Estimate, Settings, Shrinkage};
use reference::input::{Call, Input, UNTOUCHED};
use reference::leaves::{abs, exp, pow2_scaled};
use reference::{MAX_PERIODS, MAX_SIDE, MAX_SWEEPS, MIN_PERIODS};

/// A power `k` is from `-MAX_POWER` to `MAX_POWER`.
const MAX_POWER: i32 = 80;
/// A return and a threshold are 0 or of size `2^-RETURN_RANGE` to `2^RETURN_RANGE`.
pub const RETURN_RANGE: i32 = 40;
/// A given entry and a regularization likewise.
pub const COVARIANCE_RANGE: i32 = 80;
/// An intensity that shrinks a covariance is 0 or at least `2^-INTENSITY_RANGE`.
pub const INTENSITY_RANGE: i32 = 40;
/// A number of a mean answer is 0 or of size at least `2^-MEAN_RANGE`.
pub const MEAN_RANGE: i32 = 400;
/// The first weight's age is at most so many half-lives.
const MAX_HALF_LIVES: f64 = 64.0;
/// The first weight's age times a decay factor's log is at least this.
const MIN_AGED_LOG: f64 = -44.0;

/// Powers at the ends, about half of them, and about 0.
const POWERS: [i32; 11] = [
    -MAX_POWER,
    1 - MAX_POWER,
    -1 - MAX_POWER / 2,
    -MAX_POWER / 2,
    -1,
    0,
    1,
    MAX_POWER / 2,
    1 + MAX_POWER / 2,
    MAX_POWER - 1,
    MAX_POWER,
];

pub struct Pair {
    pub k: i32,
    pub input: Input,
    pub scaled: Input,
}

pub fn draw_pair(random: &Random) -> Pair {
    let k = match random.below(4) {
        0 => random.pick(&POWERS),
        1 => random.between(-20, 20),
        _ => random.between(-MAX_POWER, MAX_POWER),
    };
    let mut input = draw_input(random, k);
    if random.chance(8) {
        damage(random, &mut input);
    }
    let scaled = scaled(&input, k, random.bits());
    Pair { k, input, scaled }
}

/// The sizes from `2^low` to `2^high` that a factor leaves within the range of the law.
pub struct Sizes {
    pub low: i32,
    pub high: i32,
}

impl Sizes {
    /// From `2^-most` to `2^most`, for both numbers of a pair, the second `2^k` times the first.
    pub fn within(most: i32, k: i32) -> Self {
        Sizes {
            low: -most - k.min(0),
            high: most - k.max(0),
        }
    }

    /// 0, one of the ends, or any other.
    fn draw(&self, random: &Random) -> f64 {
        let sign = random.pick(&[1.0, -1.0]);
        match random.below(12) {
            0 => sign * 0.0,
            1 => pow2_scaled(sign, self.low),
            2 => pow2_scaled(sign, self.high),
            _ => self.fitted(random.sized(self.low, self.high)),
        }
    }

    /// The nearest number of such a size. A zero stays.
    pub fn fitted(&self, x: f64) -> f64 {
        let (least, most) = (pow2_scaled(1.0, self.low), pow2_scaled(1.0, self.high));
        if x == 0.0 {
            x
        } else {
            abs(x).clamp(least, most).copysign(x)
        }
    }

    /// A power between the ends.
    pub fn power(&self, random: &Random) -> i32 {
        random.between(self.low, self.high)
    }
}

fn draw_input(random: &Random, k: i32) -> Input {
    let (assets, periods) = match random.below(20) {
        0 => (MAX_SIDE, 64),
        1 => (4, 1000),
        _ => (8, 128),
    };
    let n = draw_count(random, &(1..=assets));
    let t = draw_count(random, &(MIN_PERIODS..=periods));
    let sizes = Sizes::within(RETURN_RANGE, k);
    let returns = draw_returns(random, n, t, &sizes);
    let covariance = || draw_covariance(random, n, t, k);
    let call = draw_call(random, covariance, || draw_decay(random, t));
    let answer = vec![UNTOUCHED; call.fills(n) + random.below(3)];
    Input {
        returns,
        n,
        t,
        call,
        answer,
    }
}

fn draw_returns(random: &Random, n: usize, t: usize, sizes: &Sizes) -> Vec<f64> {
    let unit = sizes.power(random);
    let most = random.pick(&[1, 4, 100]);
    let kind = random.below(6);
    let entry = |_| match kind {
        0 => sizes.draw(random),
        1 => {
            let end = random.pick(&[sizes.low, sizes.high]);
            pow2_scaled(random.pick(&[1.0, -1.0, 0.0, -0.0]), end)
        }
        2 => sizes.fitted(pow2_scaled(f64::from(random.between(-most, most)), unit)),
        // A common drift, so that means are far from 0.
        3 => sizes.fitted(pow2_scaled(3.0 + random.bell(), unit)),
        _ => sizes.fitted(pow2_scaled(random.bell(), unit)),
    };
    let mut returns: Vec<f64> = (0..t * n).map(entry).collect();
    set_columns(random, &mut returns, n, sizes, unit);
    returns
}

/// Sometimes sets a column or all of them, so that variances are 0 or means equal.
fn set_columns(random: &Random, returns: &mut [f64], n: usize, sizes: &Sizes, unit: i32) {
    let j = random.below(n);
    match random.below(12) {
        0 | 1 => {
            let value = sizes.draw(random);
            set_column(returns, n, j, |_| value);
        }
        2 => {
            // Constant but for the last digits: near the edge of zero variance.
            let step = random.pick(&[1e-9, 1e-10, 3e-11]);
            let nearly = |row| pow2_scaled(1.0 + step * (row % 2) as f64, unit);
            set_column(returns, n, j, |row| sizes.fitted(nearly(row)));
        }
        3 => {
            // One asset is another's negative: a singular covariance.
            for row in returns.chunks_exact_mut(n) {
                row[j] = -row[0];
            }
        }
        4 => {
            // Equal means: each column the first one's values, begun at another period.
            let first: Vec<f64> = returns.iter().step_by(n).copied().collect();
            let t = first.len();
            (1..n).for_each(|i| set_column(returns, n, i, |row| first[(row + i) % t]));
        }
        _ => {}
    }
}

fn draw_covariance(random: &Random, n: usize, t: usize, k: i32) -> Call {
    let sizes = Sizes::within(COVARIANCE_RANGE, 2 * k);
    let estimate = match random.below(11) {
        0..=3 => Estimate::Sample,
        4..=6 => Estimate::Given,
        7 | 8 => Estimate::ExponentiallyWeighted(draw_decay(random, t)),
        9 => Estimate::Semi,
        _ => Estimate::SemiBelow(Sizes::within(RETURN_RANGE, k).draw(random)),
    };
    let shrinkage = match (random.below(8), estimate) {
        (0 | 1, _) => Shrinkage::Unshrunk,
        (2, _) => {
            let least = pow2_scaled(1.0, -INTENSITY_RANGE);
            Shrinkage::Fixed(random.pick(&[0.0, -0.0, 1.0, 0.5, least, 1.5]))
        }
        (3, _) => Shrinkage::Fixed(random.unit()),
        (4, _) | (_, Estimate::Sample) => Shrinkage::LedoitWolf(draw_target(random)),
        _ => Shrinkage::Unshrunk,
    };
    let regularization = match random.below(4) {
        0 => Some(abs(sizes.draw(random))),
        1 => Some(sizes.draw(random)),
        _ => None,
    };
    let settings = Settings {
        estimate,
        shrinkage,
        regularization,
        limit: draw_limit(random),
    };
    let (given, side) = match estimate {
        Estimate::Given => (draw_given(random, n, &sizes), n),
        _ => (Vec::new(), 0),
    };
    Call::AdjustedCovariance {
        settings,
        given,
        side,
    }
}

/// Whether the law grants the decay over so many periods: the oldest weight is not too small. Of a
/// refused factor it asks nothing.
pub fn slow_enough(t: usize, decay: Decay) -> bool {
    let age = t.saturating_sub(1) as f64;
    // Rounded once, the sum has the sign of the exact one.
    let recent = |log: f64| age.mul_add(log, -MIN_AGED_LOG) >= 0.0;
    match decay {
        Decay::HalfLife(half_life) => age <= MAX_HALF_LIVES * half_life,
        Decay::Lambda(_) => decay.log().map_or(true, recent),
    }
}

/// Either kind as often.
fn draw_decay(random: &Random, t: usize) -> Decay {
    match random.below(2) {
        0 => Decay::HalfLife(draw_half_life(random, t)),
        _ => Decay::Lambda(draw_factor(random, t)),
    }
}

/// From the smallest that the law grants.
fn draw_factor(random: &Random, t: usize) -> f64 {
    let smallest = smallest_factor(t);
    match random.below(8) {
        0 => smallest,
        1 => smallest.max(random.near(smallest, 5)),
        2 => smallest.max(random.pick(&[0.5, 0.75, 0.94, LARGEST_FACTOR])),
        // Refused, in both inputs.
        3 => random.pick(&BAD_FACTORS),
        // Evenly, or with the log of the oldest weight drawn evenly.
        4 | 5 => smallest + (LARGEST_FACTOR - smallest) * random.unit(),
        _ => smallest.max(exp(random.unit() * MIN_AGED_LOG / (t - 1) as f64)),
    }
}

/// The smallest that the law grants, looked for about where it is.
fn smallest_factor(t: usize) -> f64 {
    let granted = |factor: f64| slow_enough(t, Decay::Lambda(factor));
    let mut factor = exp(MIN_AGED_LOG / (t - 1) as f64);
    while granted(factor.next_down()) {
        factor = factor.next_down();
    }
    while !granted(factor) {
        factor = factor.next_up();
    }
    factor
}

/// From the shortest that the law grants.
fn draw_half_life(random: &Random, t: usize) -> f64 {
    let shortest = (t - 1) as f64 / MAX_HALF_LIVES;
    match random.below(4) {
        0 => shortest,
        1 => shortest * (1.0 + random.unit()),
        2 => shortest + 100.0 * random.unit(),
        _ => random.pick(&[1e6, f64::MAX]),
    }
}

fn draw_given(random: &Random, side: usize, sizes: &Sizes) -> Vec<f64> {
    let periods = random.pick(&[1, side, 2 * side + 1]);
    let unit = sizes.power(random);
    let mut given = product(random, side, periods);
    // About 1, for any number of periods.
    let scale = 2500.0 / periods as f64;
    for x in &mut given {
        *x = sizes.fitted(pow2_scaled(*x * scale, unit));
    }
    let (i, j) = (random.below(side), random.below(side));
    match random.below(10) {
        0 => {
            for at in 0..side * side {
                let transposed = at % side * side + at / side;
                given[at] = if transposed < at {
                    given[transposed]
                } else {
                    sizes.draw(random)
                };
            }
        }
        1 => {
            for (at, x) in given.iter_mut().enumerate() {
                if at % (side + 1) != 0 {
                    *x = 0.0 * *x;
                }
            }
        }
        2 => given.fill(random.pick(&[0.0, -0.0])),
        3 => given[i * side + i] = random.pick(&[0.0, -0.0]),
        // Within the tolerance of asymmetry, about at its edge, or beyond.
        4 => {
            let step = random.pick(&[1e-13, 1e-12, 1e-3]);
            given[i * side + j] = sizes.fitted(given[i * side + j] * (1.0 + step));
        }
        5 => given[i * side + i] = -given[i * side + i],
        _ => {}
    }
    given
}

/// Towards the refusals of shapes, lengths and the limit, which the law speaks of too.
fn damage(random: &Random, input: &mut Input) {
    match random.below(8) {
        0 => input.n = 0,
        1 => input.n = random.pick(&TOO_WIDE),
        2 => input.t = random.below(MIN_PERIODS),
        3 => input.t = MAX_PERIODS + 1,
        4 => input.returns.truncate(1),
        5 => input.answer.truncate(input.answer.len() / 2),
        _ => match &mut input.call {
            Call::AdjustedCovariance {
                settings,
                given,
                side,
            } => match random.below(5) {
                0 => settings.limit = MAX_SWEEPS + 1,
                1 => *side = 0,
                2 => *side = random.pick(&TOO_WIDE),
                3 => given.truncate(1),
                _ => {
                    *side = 1;
                    given.truncate(1);
                }
            },
            Call::JamesSteinMean { limit } | Call::BayesSteinMean { limit } => {
                *limit = MAX_SWEEPS + 1;
            }
            Call::ExponentiallyWeightedMean { .. } | Call::LedoitWolf(_) => {}
        },
    }
}

/// The input times a power of two. The answer slice holds something else.
fn scaled(input: &Input, k: i32, held: u64) -> Input {
    let all = |numbers: &[f64], k| numbers.iter().map(|&x| pow2_scaled(x, k)).collect();
    let mut call = input.call.clone();
    if let Call::AdjustedCovariance {
        settings, given, ..
    } = &mut call
    {
        *given = all(given, 2 * k);
        settings.regularization = settings.regularization.map(|x| pow2_scaled(x, 2 * k));
        if let Estimate::SemiBelow(threshold) = &mut settings.estimate {
            *threshold = pow2_scaled(*threshold, k);
        }
    }
    Input {
        returns: all(&input.returns, k),
        n: input.n,
        t: input.t,
        call,
        answer: vec![f64::from_bits(held); input.answer.len()],
    }
}
