// Settings that are within their ranges, the ends of each included.

use crate::random::Random;
use reference::covariance::{Decay, Estimate, Settings, Shrinkage, Target};
use reference::leaves::{exp, pow2_scaled, LN_2};
use reference::MAX_SWEEPS;

/// The smallest decay factor that is accepted: its log is -708.
pub const SMALLEST_FACTOR: f64 = f64::from_bits(0x0017C8AB2288C82F);
/// The largest number below 1.
pub const LARGEST_FACTOR: f64 = 1.0 - f64::EPSILON / 2.0;

pub fn draw_settings(random: &Random) -> Settings {
    let estimate = match random.below(11) {
        0..=3 => Estimate::Sample,
        4..=6 => Estimate::Given,
        7 | 8 => Estimate::ExponentiallyWeighted(draw_decay(random)),
        9 => Estimate::Semi,
        _ => Estimate::SemiBelow(random.pick(&[0.0, -0.0, 0.001, -0.02, 5.0, -1e-300])),
    };
    let shrinkage = match (random.below(6), estimate) {
        (0 | 1, _) => Shrinkage::Unshrunk,
        (2, _) => Shrinkage::Fixed(random.pick(&[0.0, -0.0, 1.0, 0.5, 1e-20])),
        (3, _) => Shrinkage::Fixed(random.unit()),
        (_, Estimate::Sample) => Shrinkage::LedoitWolf(draw_target(random)),
        _ => Shrinkage::Unshrunk,
    };
    let regularization = match random.below(6) {
        0..=2 => None,
        3 => Some(random.pick(&[0.0, -0.0])),
        4 => Some(random.pick(&[1e-8, 1.0, 5e-324, 1e300])),
        _ => Some(1e-4 * random.unit()),
    };
    Settings {
        estimate,
        shrinkage,
        regularization,
        limit: draw_limit(random),
    }
}

pub fn draw_target(random: &Random) -> Target {
    random.pick(&[Target::ConstantVariance, Target::ConstantCorrelation])
}

/// Either kind as often.
pub fn draw_decay(random: &Random) -> Decay {
    match random.below(2) {
        0 => Decay::HalfLife(draw_half_life(random)),
        _ => Decay::Lambda(draw_factor(random)),
    }
}

/// From the shortest accepted, `ln 2 / 708`, to the longest. At `4 ln 2`, two logs are -0.5, where
/// `exp_m1` changes its way.
fn draw_half_life(random: &Random) -> f64 {
    let shortest = LN_2 / -Decay::MIN_LOG;
    match random.below(4) {
        0 => random.pick(&[shortest, 1.0, 2.0, 4.0 * LN_2, 11.2, 1e6, f64::MAX]),
        1 => 0.001 + 0.2 * random.unit(),
        _ => 0.5 + 100.0 * random.unit(),
    }
}

/// From the smallest accepted to the largest, the usual ones most often.
fn draw_factor(random: &Random) -> f64 {
    match random.below(10) {
        0 => random.pick(&[SMALLEST_FACTOR, 0.18, 0.5, 0.94, LARGEST_FACTOR]),
        // Two logs are about -0.5, where `exp_m1` changes its way.
        1 => random.near(exp(-0.25), 3),
        // About 1.5 times a power of two, where `ln` changes its way.
        2 => random.near(pow2_scaled(1.5, draw_power(random)), 2),
        3 => SMALLEST_FACTOR.max(pow2_scaled(1.0 + random.unit(), draw_power(random))),
        4 | 5 => random.unit(),
        _ => 0.9 + 0.099 * random.unit(),
    }
}

/// From the power of the smallest factor, often near 0.
fn draw_power(random: &Random) -> i32 {
    random.between(random.pick(&[-1022, -10]), -1)
}

/// Mostly enough sweeps to end.
pub fn draw_limit(random: &Random) -> usize {
    match random.below(8) {
        0 => random.below(8),
        1 | 2 => random.below(MAX_SWEEPS + 1),
        _ => MAX_SWEEPS,
    }
}
