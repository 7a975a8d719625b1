// One of the five calls with all its arguments, and what comes back: the form in which the
// programs here hand inputs and answers around.

use crate::calls::{
    adjusted_covariance, bayes_stein_mean, exponentially_weighted_mean, james_stein_mean,
    ledoit_wolf, Covariance,
};
use crate::covariance::{Decay, Settings, Target};
use crate::expected_returns::Shrunk;
use crate::refusal::Refusal;

/// What a lent slice holds before a call, where nothing else is asked for. The program `replay`
/// begins with the same number.
pub const UNTOUCHED: f64 = 7.5;

#[derive(Debug, Clone)]
pub struct Input {
    pub returns: Vec<f64>,
    pub n: usize,
    pub t: usize,
    pub call: Call,
    /// The answer slice before the call. The Ledoit-Wolf call takes none.
    pub answer: Vec<f64>,
}

#[derive(Debug, Clone)]
pub enum Call {
    AdjustedCovariance {
        settings: Settings,
        given: Vec<f64>,
        side: usize,
    },
    LedoitWolf(Target),
    ExponentiallyWeightedMean {
        decay: Decay,
    },
    JamesSteinMean {
        limit: usize,
    },
    BayesSteinMean {
        limit: usize,
    },
}

#[derive(Debug, Clone, Copy)]
pub enum Report {
    Covariance(Covariance),
    Intensity(f64),
    Mean,
    Shrunk(Shrunk),
}

impl Call {
    /// How many numbers of the answer slice the call fills for `n` assets.
    pub fn fills(&self, n: usize) -> usize {
        match self {
            Call::AdjustedCovariance { .. } => n * n,
            Call::LedoitWolf(_) => 0,
            _ => n,
        }
    }
}

impl Input {
    /// Whole rows of `n` returns, and an untouched answer slice one number longer than needed.
    pub fn new(returns: &[f64], n: usize, call: Call) -> Self {
        Input {
            returns: returns.to_vec(),
            n,
            t: returns.len() / n,
            answer: vec![UNTOUCHED; call.fills(n) + 1],
            call,
        }
    }

    /// The adjusted covariance with no given matrix.
    pub fn covariance(returns: &[f64], n: usize, settings: Settings) -> Self {
        Input::with_given(returns, n, settings, &[], 0)
    }

    pub fn with_given(
        returns: &[f64],
        n: usize,
        settings: Settings,
        given: &[f64],
        side: usize,
    ) -> Self {
        let given = given.to_vec();
        let call = Call::AdjustedCovariance {
            settings,
            given,
            side,
        };
        Input::new(returns, n, call)
    }

    /// How many numbers of the answer slice are filled where `number` is answered: 0 where the call
    /// accepts, else a refusal's.
    pub fn filled(&self, number: usize) -> usize {
        match number {
            0 => self.call.fills(self.n),
            _ => 0,
        }
    }

    /// Whether the answer slice after a call that answers `number` has the very bits of the one before
    /// where it is not filled: everywhere after a refusal.
    pub fn kept(&self, number: usize, after: &[f64]) -> bool {
        let filled = self.filled(number);
        let before = self.answer[filled..].iter().map(|x| x.to_bits());
        before.eq(after[filled..].iter().map(|x| x.to_bits()))
    }

    /// What the call reports, and the whole answer slice after it.
    pub fn answered(&self) -> (Result<Report, Refusal>, Vec<f64>) {
        let Input { returns, n, t, .. } = self;
        let (n, t) = (*n, *t);
        let mut answer = self.answer.clone();
        let report = match &self.call {
            Call::AdjustedCovariance {
                settings,
                given,
                side,
            } => adjusted_covariance(returns, n, t, settings, given, *side, &mut answer)
                .map(Report::Covariance),
            Call::LedoitWolf(target) => ledoit_wolf(returns, n, t, *target).map(Report::Intensity),
            Call::ExponentiallyWeightedMean { decay } => {
                exponentially_weighted_mean(returns, n, t, *decay, &mut answer)
                    .map(|()| Report::Mean)
            }
            Call::JamesSteinMean { limit } => {
                james_stein_mean(returns, n, t, *limit, &mut answer).map(Report::Shrunk)
            }
            Call::BayesSteinMean { limit } => {
                bayes_stein_mean(returns, n, t, *limit, &mut answer).map(Report::Shrunk)
            }
        };
        (report, answer)
    }

    /// What the call reports and the numbers it fills, in words.
    pub fn told(&self) -> String {
        let (report, answer) = self.answered();
        let filled = || {
            let numbers = answer[..self.call.fills(self.n)].iter();
            numbers.map(f64::to_string).collect::<Vec<_>>().join(" ")
        };
        match report {
            Ok(Report::Covariance(c)) => format!(
                "{}, intensity {}, sweeps {}, rotations {}",
                filled(),
                c.intensity,
                c.sweeps,
                c.rotations
            ),
            Ok(Report::Intensity(intensity)) => format!("intensity {intensity}"),
            Ok(Report::Mean) => filled(),
            Ok(Report::Shrunk(s)) => format!(
                "{}, intensity {}, target {}, sweeps {}, rotations {}",
                filled(),
                s.intensity,
                s.target,
                s.sweeps,
                s.rotations
            ),
            Err(refusal) => refusal.told(),
        }
    }
}
