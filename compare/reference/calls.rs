// The five calls of document 01 over flat slices, with the refusals of 'Causes' in its order.
// Lengths and counts may be any `usize`. A refusal leaves the answer slice as it was.

use crate::covariance::{Decay, Estimate, Given, Settings, Target};
use crate::expected_returns::Shrunk;
use crate::matrix::Matrix;
use crate::refusal::{Field, Refusal};
use crate::returns::Returns;
use crate::{MAX_PERIODS, MAX_SIDE, MAX_SWEEPS, MIN_PERIODS};

/// What a covariance reports: the intensity and the given matrix's counts, each 0 if none.
#[derive(Debug, Clone, Copy)]
pub struct Covariance {
    pub intensity: f64,
    pub sweeps: usize,
    pub rotations: usize,
}

/// Fills the first `n × n` numbers of `answer`. `given` and `side` are read only where the
/// estimate is given.
pub fn adjusted_covariance(
    returns: &[f64],
    n: usize,
    t: usize,
    settings: &Settings,
    given: &[f64],
    side: usize,
    answer: &mut [f64],
) -> Result<Covariance, Refusal> {
    check_shape(n, t)?;
    let data = checked(returns, n, t, answer, n * n)?;
    let given = match settings.estimate {
        Estimate::Given => given_matrix(given, side, settings.limit)?,
        _ => Given::none(),
    };
    let (matrix, intensity) = data.adjusted_covariance(settings, &given.matrix)?;
    answer[..n * n].copy_from_slice(matrix.entries());
    Ok(Covariance {
        intensity,
        sweeps: given.sweeps,
        rotations: given.rotations,
    })
}

/// The intensity only.
pub fn ledoit_wolf(returns: &[f64], n: usize, t: usize, target: Target) -> Result<f64, Refusal> {
    check_shape(n, t)?;
    checked(returns, n, t, &[], 0)?.ledoit_wolf(target)
}

/// Fills the first `n` numbers of `answer`.
pub fn exponentially_weighted_mean(
    returns: &[f64],
    n: usize,
    t: usize,
    decay: Decay,
    answer: &mut [f64],
) -> Result<(), Refusal> {
    check_shape(n, t)?;
    let data = checked(returns, n, t, answer, n)?;
    let mean = data.weighted_mean(decay)?;
    answer[..n].copy_from_slice(&mean);
    Ok(())
}

/// Fills the first `n` numbers of `answer`.
pub fn james_stein_mean(
    returns: &[f64],
    n: usize,
    t: usize,
    limit: usize,
    answer: &mut [f64],
) -> Result<Shrunk, Refusal> {
    shrunk_mean(Returns::james_stein_mean, returns, n, t, limit, answer)
}

/// Fills the first `n` numbers of `answer`.
pub fn bayes_stein_mean(
    returns: &[f64],
    n: usize,
    t: usize,
    limit: usize,
    answer: &mut [f64],
) -> Result<Shrunk, Refusal> {
    shrunk_mean(Returns::bayes_stein_mean, returns, n, t, limit, answer)
}

/// A mean that is shrunk by a decomposition, with a sweep limit.
type Mean = fn(&Returns, usize) -> Result<(Vec<f64>, Shrunk), Refusal>;

fn shrunk_mean(
    mean: Mean,
    returns: &[f64],
    n: usize,
    t: usize,
    limit: usize,
    answer: &mut [f64],
) -> Result<Shrunk, Refusal> {
    check_shape(n, t)?;
    let data = checked(returns, n, t, answer, n)?;
    check_limit(limit)?;
    let (mean, report) = mean(&data, limit)?;
    answer[..n].copy_from_slice(&mean);
    Ok(report)
}

/// 1, 2, 3. After it, products of the counts are small.
fn check_shape(n: usize, t: usize) -> Result<(), Refusal> {
    if n == 0 {
        return Err(Refusal::NoAssets);
    }
    if n > MAX_SIDE || t > MAX_PERIODS {
        return Err(Refusal::TooLarge);
    }
    if t < MIN_PERIODS {
        return Err(Refusal::TooFewPeriods(t));
    }
    Ok(())
}

/// 4, where `needed` numbers of `answer` are to be filled, then 5 and the sample covariance's 6.
fn checked(
    returns: &[f64],
    n: usize,
    t: usize,
    answer: &[f64],
    needed: usize,
) -> Result<Returns, Refusal> {
    if returns.len() != t * n || answer.len() < needed {
        return Err(Refusal::WrongLength);
    }
    Returns::new(Matrix::from_row_slice(t, n, returns))
}

/// 7, field 5.
fn check_limit(limit: usize) -> Result<(), Refusal> {
    if limit > MAX_SWEEPS {
        return Err(Refusal::BadSetting(Field::SweepLimit));
    }
    Ok(())
}

/// The sweep limit's 7, then a given matrix's 1, 2, 10 (slice), 5, 11, 13, 12.
fn given_matrix(given: &[f64], side: usize, limit: usize) -> Result<Given, Refusal> {
    check_limit(limit)?;
    if side == 0 {
        return Err(Refusal::NoAssets);
    }
    if side > MAX_SIDE {
        return Err(Refusal::TooLarge);
    }
    if given.len() != side * side {
        return Err(Refusal::WrongSide(side));
    }
    Given::new(Matrix::from_row_slice(side, side, given), limit)
}
