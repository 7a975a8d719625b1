// Draws inputs for the five calls from a fixed seed: mostly good ones of every shape, kind of
// number and setting, the rest damaged so that each refusal occurs. For the call that takes prices
// and for question records likewise.

pub mod broken;
pub mod damage;
pub mod given;
pub mod matrices;
pub mod pairs;
pub mod papers;
pub mod price_pairs;
pub mod prices;
pub mod questions;
pub mod random;
pub mod returns;
pub mod screens;
pub mod settings;
pub mod sides;

use damage::damage;
use given::draw_given;
use random::Random;
use reference::covariance::{Decay, Estimate};
use reference::input::{Call, Input};
use returns::draw_returns;
use settings::{draw_decay, draw_limit, draw_settings, draw_target};
use std::ops::RangeInclusive;

/// The assets and periods that a return matrix may have.
pub struct Shapes {
    pub assets: RangeInclusive<usize>,
    pub periods: RangeInclusive<usize>,
}

/// An input, damaged or not.
pub fn draw(random: &Random, shapes: &Shapes) -> Input {
    let mut input = draw_good(random, shapes);
    if random.chance(30) {
        // Two or three at once try the order of the refusals.
        for _ in 0..random.pick(&[1, 1, 1, 1, 2, 3]) {
            damage(random, &mut input);
        }
    }
    input
}

/// An input that breaks no rule of lengths, counts and settings. It may still be refused for its
/// numbers: a constant column, too few sweeps, a singular matrix.
fn draw_good(random: &Random, shapes: &Shapes) -> Input {
    let n = draw_count(random, &shapes.assets);
    let t = draw_count(random, &shapes.periods);
    let returns = draw_returns(random, n, t);
    let covariance = || draw_covariance(random, n);
    let call = draw_call(random, covariance, || draw_decay(random));
    // What the answer slice holds before, and how much longer it is, must not matter.
    let answer = (0..call.fills(n) + random.below(3))
        .map(|_| f64::from_bits(random.bits()))
        .collect();
    Input {
        returns,
        n,
        t,
        call,
        answer,
    }
}

/// Any of the calls, the covariance as often as the others together.
fn draw_call(
    random: &Random,
    covariance: impl FnOnce() -> Call,
    decay: impl FnOnce() -> Decay,
) -> Call {
    match random.below(10) {
        0..=4 => covariance(),
        5 => Call::LedoitWolf(draw_target(random)),
        6 | 7 => Call::ExponentiallyWeightedMean { decay: decay() },
        8 => Call::JamesSteinMean {
            limit: draw_limit(random),
        },
        _ => Call::BayesSteinMean {
            limit: draw_limit(random),
        },
    }
}

fn draw_covariance(random: &Random, n: usize) -> Call {
    let settings = draw_settings(random);
    let (given, side) = match settings.estimate {
        Estimate::Given => (draw_given(random, n), n),
        // Not read: anything may stand here.
        _ => (vec![f64::NAN; random.below(3)], random.below(3)),
    };
    Call::AdjustedCovariance {
        settings,
        given,
        side,
    }
}

/// The ends often, and few as likely as many.
fn draw_count(random: &Random, counts: &RangeInclusive<usize>) -> usize {
    let (least, most) = (*counts.start(), *counts.end());
    let any = random.below(most - least + 1);
    match random.below(10) {
        0 => least,
        1 => most,
        2..=5 => least + any,
        _ => least + any % (1 << random.below(13)),
    }
}
