// Damages, each towards a refusal of document 01's table; an earlier one may apply instead, or none.

use crate::given::draw_given;
use crate::random::Random;
use crate::returns::set_column;
use crate::settings::{draw_target, SMALLEST_FACTOR};
use crate::sides::FORMER_MAX_SIDE;
use reference::covariance::{Decay, Estimate, Settings, Shrinkage};
use reference::input::{Call, Input};
use reference::{MAX_PERIODS, MAX_SIDE, MAX_SWEEPS, MIN_PERIODS};

pub const NOT_FINITE: [f64; 3] = [f64::NAN, f64::INFINITY, f64::NEG_INFINITY];
/// Sides that no matrix may have, among them the largest that document 01 allowed.
pub const TOO_WIDE: [usize; 6] = [
    MAX_SIDE + 1,
    FORMER_MAX_SIDE,
    FORMER_MAX_SIDE + 1,
    1000,
    1 << 32,
    usize::MAX,
];
const BAD_LIMITS: [usize; 4] = [MAX_SWEEPS + 1, 200, 1 << 32, usize::MAX];
/// The log of 9.7e-4 is below -708, that of 9e-4 below -745, where exp is 0.
const BAD_HALF_LIVES: [f64; 8] = [
    0.0,
    -0.0,
    -1.0,
    9e-4,
    9.7e-4,
    f64::NAN,
    f64::INFINITY,
    f64::NEG_INFINITY,
];
/// At 0 the steps of the log alone would give -4.53. The log of those below the smallest is below
/// -708, down to -744.
pub const BAD_FACTORS: [f64; 13] = [
    0.0,
    -0.0,
    -0.5,
    1.0,
    1.0 + f64::EPSILON,
    2.0,
    SMALLEST_FACTOR.next_down(),
    f64::MIN_POSITIVE,
    1e-310,
    5e-324,
    f64::NAN,
    f64::INFINITY,
    f64::NEG_INFINITY,
];

pub fn damage(random: &Random, input: &mut Input) {
    if random.chance(65) {
        damage_call(random, input);
    } else {
        damage_returns(random, input);
    }
}

/// Towards 1 to 6, 9 and 14, which every call has or may have.
fn damage_returns(random: &Random, input: &mut Input) {
    match random.below(9) {
        0 => input.n = 0,
        1 => input.n = random.pick(&TOO_WIDE),
        2 => input.t = random.pick(&[MAX_PERIODS + 1, 1 << 40, usize::MAX]),
        3 => input.t = random.below(MIN_PERIODS),
        4 => wrong_length(random, &mut input.returns),
        5 => input.answer.truncate(input.answer.len() / 2),
        6 => put(random, &mut input.returns, random.pick(&NOT_FINITE)),
        7 => put(random, &mut input.returns, random.pick(&[1e200, f64::MAX])),
        _ => {
            let width = input.n.clamp(1, MAX_SIDE);
            let columns = if random.chance(50) { width } else { 1 };
            for j in 0..columns {
                set_column(&mut input.returns, width, j, |_| 0.5);
            }
        }
    }
}

/// Towards what only this call refuses.
fn damage_call(random: &Random, input: &mut Input) {
    let n = input.n.clamp(1, MAX_SIDE);
    match &mut input.call {
        Call::AdjustedCovariance {
            settings,
            given,
            side,
        } => {
            if random.chance(40) {
                for _ in 0..random.pick(&[1, 1, 2]) {
                    damage_settings(random, settings);
                }
            } else {
                settings.estimate = Estimate::Given;
                damage_given(random, n, given, side, &mut settings.limit);
            }
        }
        Call::LedoitWolf(_) => set_column(&mut input.returns, n, random.below(n), |_| 0.25),
        Call::ExponentiallyWeightedMean { decay } => *decay = draw_bad_decay(random),
        Call::JamesSteinMean { limit } | Call::BayesSteinMean { limit } => {
            *limit = random.pick(&[0, 1, 2, random.pick(&BAD_LIMITS)]);
        }
    }
}

/// Towards 7 and 8.
fn damage_settings(random: &Random, settings: &mut Settings) {
    match random.below(8) {
        0 => {
            let bad = [-1.0, -5e-324, f64::NAN, f64::INFINITY, f64::NEG_INFINITY];
            settings.regularization = Some(random.pick(&bad));
        }
        1 => {
            let bad = [-5e-324, 1.0 + f64::EPSILON, 2.0, f64::NAN, f64::INFINITY];
            settings.shrinkage = Shrinkage::Fixed(random.pick(&bad));
        }
        2 | 3 => settings.estimate = Estimate::ExponentiallyWeighted(draw_bad_decay(random)),
        4 => settings.estimate = Estimate::SemiBelow(random.pick(&NOT_FINITE)),
        5 => settings.limit = random.pick(&BAD_LIMITS),
        _ => {
            settings.shrinkage = Shrinkage::LedoitWolf(draw_target(random));
            settings.estimate = random.pick(&[
                Estimate::Given,
                Estimate::ExponentiallyWeighted(Decay::HalfLife(3.0)),
                Estimate::ExponentiallyWeighted(Decay::Lambda(0.5)),
                Estimate::Semi,
                Estimate::SemiBelow(0.0),
            ]);
        }
    }
}

fn draw_bad_decay(random: &Random) -> Decay {
    match random.below(2) {
        0 => Decay::HalfLife(random.pick(&BAD_HALF_LIVES)),
        _ => Decay::Lambda(random.pick(&BAD_FACTORS)),
    }
}

/// Towards a given matrix's 1, 2, 5, 7 and 10 to 13.
fn damage_given(
    random: &Random,
    n: usize,
    given: &mut Vec<f64>,
    side: &mut usize,
    limit: &mut usize,
) {
    *side = n;
    *given = draw_given(random, n);
    match random.below(11) {
        0 => *side = 0,
        1 => *side = random.pick(&TOO_WIDE),
        2 => wrong_length(random, given),
        3 => {
            // Square, but of another side than the returns.
            *side = 1 + n % MAX_SIDE;
            *given = draw_given(random, *side);
        }
        4 => put(random, given, random.pick(&NOT_FINITE)),
        5 | 6 if n > 1 => given[n - 1] += 1.0,
        5..=7 => {
            for x in given {
                *x = -*x;
            }
        }
        8 => *limit = random.below(3),
        _ => *limit = random.pick(&BAD_LIMITS),
    }
}

pub fn wrong_length(random: &Random, numbers: &mut Vec<f64>) {
    match random.below(3) {
        0 => numbers.push(0.125),
        1 => numbers.clear(),
        _ => {
            numbers.pop();
        }
    }
}

/// Replaces one number, if there is one.
pub fn put(random: &Random, numbers: &mut [f64], value: f64) {
    if !numbers.is_empty() {
        numbers[random.below(numbers.len())] = value;
    }
}
