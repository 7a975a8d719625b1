// Runs the power-of-two law on drawn pairs, the second input 2^k times the first: the same refusal
// at the same place, or the same intensity and counts, with covariances exactly 2^2k times the
// other's, means and target exactly 2^k times. Pairs outside the ranges that the law asks for
// (crates/law/specs/Law.antt) are left out and counted. Prints a table for the copy and one for the
// engine, and ends with 1 if a pair breaks the law. Argument: how many pairs.

mod argument;
mod tally;

use generator::pairs::{
    draw_pair, slow_enough, Pair, COVARIANCE_RANGE, INTENSITY_RANGE, MEAN_RANGE, RETURN_RANGE,
};
use generator::random::Random;
use reference::calls::ledoit_wolf;
use reference::covariance::{Estimate, Shrinkage};
use reference::flat::Flat;
use reference::input::{Call, Input};
use reference::leaves::{abs, pow2_scaled};
use reference::refusal::Refusal;
use tally::{Tally, ACCEPTED, OWN};

const LEFT_OUT: usize = OWN;
const BROKEN: usize = OWN + 1;

/// Refusal 12, whose eigenvalue is not compared.
const INDEFINITE: u32 = Refusal::Indefinite(0.0).number() as u32;

fn main() {
    let pairs = argument::whole(1, 40_000);
    let mut broken = 0;
    let ways: [(&str, fn(&Input) -> Answer); 2] =
        [("copy", copy), ("engine", engine::calls::answered)];
    for (name, answered) in ways {
        let random = Random::new(6);
        let mut tally = Tally::new(&["left out", "broken"]);
        for _ in 0..pairs {
            judge(&draw_pair(&random), answered, &mut tally);
        }
        println!("the {name}");
        tally.print();
        broken += tally.total(BROKEN);
    }
    if broken > 0 {
        std::process::exit(1);
    }
}

fn copy(input: &Input) -> Answer {
    let (report, slice) = input.answered();
    (Flat::of(&report), slice)
}

/// What a call reports, and the whole answer slice after it.
type Answer = (Flat, Vec<f64>);

fn judge(pair: &Pair, answered: impl Fn(&Input) -> Answer, tally: &mut Tally) {
    let Pair { k, input, scaled } = pair;
    let (one, other) = (answered(input), answered(scaled));
    tally.add(&input.call, one.0.number as usize);
    if !(granted(input, &one) && granted(scaled, &other)) {
        tally.add(&input.call, LEFT_OUT);
    } else if !holds(pair, &one, &other) {
        tally.add(&input.call, BROKEN);
        if tally.total(BROKEN) <= 3 {
            println!("k {k}, {input:?}: {one:?}, {other:?}");
        }
    }
}

// ---- the law

fn holds(pair: &Pair, (one, first): &Answer, (other, second): &Answer) -> bool {
    let Pair { k, input, scaled } = pair;
    if one.number != other.number {
        return false;
    }
    let number = one.number as usize;
    let filled = input.filled(number);
    let power = match input.call {
        Call::AdjustedCovariance { .. } => 2 * k,
        _ => *k,
    };
    let entries = first[..filled].iter().zip(&second[..filled]);
    one.wholes == other.wholes
        && (one.number == INDEFINITE || times(one.numbers[0], other.numbers[0], 0))
        && times(one.numbers[1], other.numbers[1], *k)
        && entries.into_iter().all(|(&x, &y)| times(x, y, power))
        && input.kept(number, first)
        && scaled.kept(number, second)
}

/// `y` is exactly `2^k` times `x`; an infinity answers to one of its sign, NaN to NaN.
fn times(x: f64, y: f64, k: i32) -> bool {
    match (parts(x), parts(y)) {
        (Some((m, e)), Some((n, f))) => m == n && (m == 0 || e + k == f),
        (None, None) => x.is_nan() == y.is_nan() && (x.is_nan() || x == y),
        _ => false,
    }
}

/// A finite number as an odd whole number times a power of two, or 0.
fn parts(x: f64) -> Option<(i64, i32)> {
    let exponent = ((x.to_bits() >> 52) & 0x7ff) as i32;
    let fraction = (x.to_bits() & ((1 << 52) - 1)) as i64;
    let (whole, power) = match exponent {
        0x7ff => return None,
        0 => (fraction, -1074),
        _ => (fraction | (1 << 52), exponent - 1075),
    };
    let zeros = if whole == 0 {
        0
    } else {
        whole.trailing_zeros()
    };
    let odd = whole >> zeros;
    let signed = if x.is_sign_negative() { -odd } else { odd };
    Some((signed, power + zeros as i32))
}

// ---- the law's ranges

fn granted(input: &Input, (flat, slice): &Answer) -> bool {
    let Input { returns, n, t, .. } = input;
    returns.iter().all(|&x| within(x, RETURN_RANGE))
        && match &input.call {
            Call::AdjustedCovariance {
                settings, given, ..
            } => {
                let estimate = match settings.estimate {
                    Estimate::ExponentiallyWeighted(decay) => slow_enough(*t, decay),
                    Estimate::SemiBelow(threshold) => within(threshold, RETURN_RANGE),
                    Estimate::Given => given.iter().all(|&x| within(x, COVARIANCE_RANGE)),
                    Estimate::Sample | Estimate::Semi => true,
                };
                let sample = matches!(settings.estimate, Estimate::Sample);
                let intensity = match settings.shrinkage {
                    Shrinkage::Fixed(intensity) => intensity,
                    // Also where the covariance is refused later.
                    Shrinkage::LedoitWolf(target) if sample => {
                        ledoit_wolf(returns, *n, *t, target).unwrap_or(0.0)
                    }
                    Shrinkage::Unshrunk | Shrinkage::LedoitWolf(_) => 0.0,
                };
                estimate
                    && at_least(intensity, INTENSITY_RANGE)
                    && within(settings.regularization.unwrap_or(0.0), COVARIANCE_RANGE)
            }
            // The bound is on an intensity that shrinks a covariance.
            Call::LedoitWolf(_) => true,
            mean => {
                let slow = match mean {
                    Call::ExponentiallyWeightedMean { decay } => slow_enough(*t, *decay),
                    _ => true,
                };
                let refused = flat.number as usize != ACCEPTED;
                let mut answers = flat.numbers.iter().chain(&slice[..(*n).min(slice.len())]);
                slow && (refused || answers.all(|&x| at_least(x, MEAN_RANGE)))
            }
        }
}

/// 0, NaN, or of size `2^-range` to `2^range`.
fn within(x: f64, range: i32) -> bool {
    let larger = abs(x) > pow2_scaled(1.0, range);
    at_least(x, range) && !larger
}

/// 0, NaN, or of size `2^-range` or more.
fn at_least(x: f64, range: i32) -> bool {
    let smaller = abs(x) < pow2_scaled(1.0, -range);
    x == 0.0 || !smaller
}
