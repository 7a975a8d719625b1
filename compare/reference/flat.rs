// Settings and answers in numbers, as include/engine.h has them.

use crate::covariance::{Decay, Estimate, Settings, Shrinkage, Target};
use crate::input::Report;
use crate::leaves::bits;
use crate::refusal::{Detail, Refusal};

/// A kind each, with its value. A value that the kind does not have is NaN.
#[derive(Debug, Clone, Copy)]
pub struct FlatSettings {
    pub estimate: (u32, f64),
    pub shrinkage: (u32, f64),
    pub regularization: (u32, f64),
    pub limit: usize,
}

impl FlatSettings {
    pub fn of(settings: &Settings) -> Self {
        FlatSettings {
            estimate: match settings.estimate {
                Estimate::Sample => (0, f64::NAN),
                Estimate::Given => (1, f64::NAN),
                Estimate::ExponentiallyWeighted(Decay::HalfLife(half_life)) => (2, half_life),
                Estimate::Semi => (3, f64::NAN),
                Estimate::SemiBelow(threshold) => (4, threshold),
                Estimate::ExponentiallyWeighted(Decay::Lambda(lambda)) => (5, lambda),
            },
            shrinkage: match settings.shrinkage {
                Shrinkage::Unshrunk => (0, f64::NAN),
                Shrinkage::Fixed(intensity) => (1, intensity),
                Shrinkage::LedoitWolf(target) => (2 + flat_target(target), f64::NAN),
            },
            regularization: match settings.regularization {
                None => (0, f64::NAN),
                Some(ridge) => (1, ridge),
            },
            limit: settings.limit,
        }
    }
}

pub fn flat_target(target: Target) -> u32 {
    match target {
        Target::ConstantVariance => 0,
        Target::ConstantCorrelation => 1,
    }
}

/// 0 or the refusal's number, with what comes with it. What an answer does not have is 0.
#[derive(Debug, Clone, Copy)]
pub struct Flat {
    pub number: u32,
    pub numbers: [f64; 2],
    pub wholes: [usize; 2],
}

impl Flat {
    pub fn of(answer: &Result<Report, Refusal>) -> Self {
        let accepted = |numbers, wholes| Flat {
            number: 0,
            numbers,
            wholes,
        };
        match answer {
            Ok(Report::Covariance(c)) => accepted([c.intensity, 0.0], [c.sweeps, c.rotations]),
            Ok(Report::Intensity(intensity)) => accepted([*intensity, 0.0], [0, 0]),
            Ok(Report::Mean) => Flat::of_filled(&Ok(())),
            Ok(Report::Shrunk(s)) => accepted([s.intensity, s.target], [s.sweeps, s.rotations]),
            Err(refusal) => Flat::of_filled(&Err(*refusal)),
        }
    }

    /// Of a call that reports nothing beside the numbers that it fills.
    pub fn of_filled(answer: &Result<(), Refusal>) -> Self {
        let (number, detail) = match answer {
            Ok(()) => (0, Detail::Nothing),
            Err(refusal) => (refusal.number() as u32, refusal.detail()),
        };
        let (numbers, wholes) = match detail {
            Detail::Nothing => ([0.0, 0.0], [0, 0]),
            Detail::Whole(whole) => ([0.0, 0.0], [whole, 0]),
            Detail::Entry(row, column) => ([0.0, 0.0], [row, column]),
            Detail::Value(value) => ([value, 0.0], [0, 0]),
        };
        Flat {
            number,
            numbers,
            wholes,
        }
    }
}

/// Bit for bit, NaN equal to NaN.
impl PartialEq for Flat {
    fn eq(&self, other: &Self) -> bool {
        self.number == other.number
            && self.numbers.map(bits) == other.numbers.map(bits)
            && self.wholes == other.wholes
    }
}
