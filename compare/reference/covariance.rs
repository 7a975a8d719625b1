// Carried over from covariance.rs of the source; see NOTICE.
// The settings with their checks, the given matrix, the estimates, the adjustments, and the
// Ledoit-Wolf intensity. Each refusal is in the source's place.

use crate::eigen::SymmetricEigen;
use crate::expected_returns::exponential_weights;
use crate::leaves::{
    abs, amax, binary_exponent, clamp01, exp, exp_m1, is_finite, ln, min0, pow2_scaled, sqrt,
    sum_of, LN_2,
};
use crate::matrix::{min, Matrix};
use crate::refusal::{Field, Refusal};
use crate::returns::Returns;
use crate::MAX_SWEEPS;

/// The covariance the adjustments apply to. A given matrix stands beside the settings.
#[derive(Debug, Clone, Copy)]
pub enum Estimate {
    Sample,
    Given,
    ExponentiallyWeighted(Decay),
    /// Below each asset's mean.
    Semi,
    /// Below a threshold.
    SemiBelow(f64),
}

/// How fast the weights of an exponentially weighted covariance or mean decay.
#[derive(Debug, Clone, Copy)]
pub enum Decay {
    HalfLife(f64),
    /// With the decay factor.
    Lambda(f64),
}

impl Decay {
    /// The smallest `ln λ`.
    pub const MIN_LOG: f64 = -708.0;

    /// `ln λ`, after checking it's in `[−708, 0)`. From a half-life it's `−ln 2 / h`, without
    /// rounding `λ` first. A `λ` is checked before its log, whose stand-in is for `(0, 1)` only.
    pub fn log(self) -> Result<f64, Refusal> {
        let (field, valid, log) = match self {
            Decay::HalfLife(h) => (Field::HalfLife, true, -LN_2 / h),
            Decay::Lambda(lambda) => (Field::Decay, lambda > 0.0 && lambda < 1.0, ln(lambda)),
        };
        if valid && (Decay::MIN_LOG..0.0).contains(&log) {
            Ok(log)
        } else {
            Err(Refusal::BadSetting(field))
        }
    }
}

/// What Ledoit-Wolf shrinkage shrinks the sample covariance toward.
#[derive(Debug, Clone, Copy, PartialEq)]
pub enum Target {
    ConstantVariance,
    ConstantCorrelation,
}

#[derive(Debug, Clone, Copy)]
pub enum Shrinkage {
    Unshrunk,
    Fixed(f64),
    LedoitWolf(Target),
}

/// The source's `CovarianceConfig`, with the sweep limit.
#[derive(Debug, Clone, Copy)]
pub struct Settings {
    pub estimate: Estimate,
    pub shrinkage: Shrinkage,
    pub regularization: Option<f64>,
    pub limit: usize,
}

impl Settings {
    /// The estimate, with no adjustment and the source's sweep limit.
    pub fn of(estimate: Estimate) -> Self {
        Settings {
            estimate,
            shrinkage: Shrinkage::Unshrunk,
            regularization: None,
            limit: MAX_SWEEPS,
        }
    }

    pub fn regularization(mut self, epsilon: f64) -> Self {
        self.regularization = Some(epsilon);
        self
    }

    pub fn shrinkage(mut self, lambda: f64) -> Self {
        self.shrinkage = Shrinkage::Fixed(lambda);
        self
    }

    pub fn ledoit_wolf(mut self, target: Target) -> Self {
        self.shrinkage = Shrinkage::LedoitWolf(target);
        self
    }

    pub fn limit(mut self, limit: usize) -> Self {
        self.limit = limit;
        self
    }

    /// Fields 1 to 4 (7), with field 6 in the place of 3, then Ledoit-Wolf with another estimate than
    /// the sample (8).
    pub fn validate(&self) -> Result<(), Refusal> {
        if self
            .regularization
            .is_some_and(|eps| !(is_finite(eps) && eps >= 0.0))
        {
            return Err(Refusal::BadSetting(Field::Regularization));
        }
        match self.shrinkage {
            Shrinkage::Fixed(lambda) if !(0.0..=1.0).contains(&lambda) => {
                return Err(Refusal::BadSetting(Field::Shrinkage));
            }
            _ => {}
        }
        match self.estimate {
            Estimate::ExponentiallyWeighted(decay) => {
                decay.log()?;
            }
            Estimate::SemiBelow(threshold) if !is_finite(threshold) => {
                return Err(Refusal::BadSetting(Field::Threshold));
            }
            _ => {}
        }
        match (self.shrinkage, self.estimate) {
            (Shrinkage::LedoitWolf(_), Estimate::Sample) => Ok(()),
            (Shrinkage::LedoitWolf(_), _) => Err(Refusal::NotTheSample),
            _ => Ok(()),
        }
    }
}

/// A given matrix, checked and made symmetric, with the counts of its decomposition.
pub struct Given {
    pub matrix: Matrix,
    pub sweeps: usize,
    pub rotations: usize,
}

impl Given {
    /// Where the estimate is not given: no entries, no counts.
    pub fn none() -> Self {
        Given {
            matrix: Matrix::zeros(0, 0),
            sweeps: 0,
            rotations: 0,
        }
    }

    /// The source's `CovarianceConfig::given`, for a square matrix: refuses 5, 11, 13 and 12.
    pub fn new(matrix: Matrix, limit: usize) -> Result<Self, Refusal> {
        let n = matrix.nrows();
        Returns::validate(&matrix)?;
        let tolerance = 1e-12 * matrix.amax();
        let difference = &matrix - &matrix.transpose();
        if let Some((row, col)) = Returns::find(&difference, |d| abs(d) > tolerance) {
            return Err(Refusal::Asymmetric(row, col));
        }
        let symmetric = &(&matrix + &matrix.transpose()) / 2.0;
        let (mut sweeps, mut rotations) = (0, 0);
        // Divided by its largest entry first, so neither the eigenvalues nor the cutoff can
        // overflow or underflow.
        let scale = symmetric.amax();
        if scale > 0.0 {
            let eigen =
                SymmetricEigen::new(&(&symmetric / scale), limit).ok_or(Refusal::NotDecomposed)?;
            let smallest = min(&eigen.values);
            if smallest < -10.0 * n as f64 * f64::EPSILON * amax(&eigen.values) {
                return Err(Refusal::Indefinite(smallest * scale));
            }
            (sweeps, rotations) = (eigen.sweeps, eigen.rotations);
        }
        Ok(Given {
            matrix: symmetric,
            sweeps,
            rotations,
        })
    }
}

impl Returns {
    /// The covariance that the settings ask for, with the intensity, 0 if nothing is shrunk.
    /// `given` is read only where the estimate is given.
    pub fn adjusted_covariance(
        &self,
        settings: &Settings,
        given: &Matrix,
    ) -> Result<(Matrix, f64), Refusal> {
        settings.validate()?;
        let shrinkage = match settings.shrinkage {
            Shrinkage::Unshrunk => None,
            Shrinkage::Fixed(lambda) => Some((lambda, Target::ConstantVariance)),
            Shrinkage::LedoitWolf(target) => Some((self.ledoit_wolf(target)?, target)),
        };
        let adjusted = shrinkage.is_some_and(|(lambda, _)| lambda > 0.0)
            || settings.regularization.unwrap_or(0.0) > 0.0;
        let n = self.cov_matrix.ncols();
        let estimated;
        let base = match settings.estimate {
            Estimate::Sample => &self.cov_matrix,
            Estimate::Given => {
                if given.nrows() != n {
                    return Err(Refusal::WrongSide(given.nrows()));
                }
                given
            }
            Estimate::ExponentiallyWeighted(decay) => {
                estimated = self.exponentially_weighted(decay.log()?);
                &estimated
            }
            Estimate::Semi => {
                estimated = self.semicovariance(None);
                &estimated
            }
            Estimate::SemiBelow(threshold) => {
                estimated = self.semicovariance(Some(threshold));
                &estimated
            }
        };
        if !adjusted {
            // A given variance is exact; one estimated from the returns is 0 to rounding.
            let zero = match settings.estimate {
                Estimate::Given => (0..n).find(|&i| base[(i, i)] == 0.0),
                _ => self.find_zero_variance_in(base),
            };
            if let Some(asset) = zero {
                return Err(Refusal::ZeroVariance(asset));
            }
        }

        let identity = Matrix::identity(n);

        let shrunk_cov = match shrinkage {
            Some((lambda, Target::ConstantVariance)) => {
                let mean_variance = base.trace() / n as f64;
                &((lambda * mean_variance) * &identity) + &((1.0 - lambda) * base)
            }
            Some((lambda, Target::ConstantCorrelation)) => {
                &(lambda * &constant_correlation(base)) + &((1.0 - lambda) * base)
            }
            None => base.clone(),
        };

        let adjusted = if let Some(eps) = settings.regularization {
            &shrunk_cov + &(eps * &identity)
        } else {
            shrunk_cov
        };
        if adjusted.entries().iter().any(|&x| !is_finite(x)) {
            return Err(Refusal::CovarianceNotFinite);
        }
        if adjusted.trace() == 0.0 {
            return Err(Refusal::Singular);
        }
        Ok((adjusted, shrinkage.map_or(0.0, |(lambda, _)| lambda)))
    }

    /// The exponentially weighted covariance for the decay `λ = e^log_decay`, the last row
    /// weighted most.
    fn exponentially_weighted(&self, log_decay: f64) -> Matrix {
        let (periods, n) = (self.returns.nrows(), self.returns.ncols());
        let weights = exponential_weights(periods, log_decay);
        let mean = self.weighted_means(&weights);
        // Σw − Σw²/Σw, from its closed form 2λ(1 − λ^(T−1)) / (1 − λ²), with each 1 − λ^k as
        // −expm1(k·ln λ), so neither cancels for λ near 0 or 1.
        let lambda = exp(log_decay);
        let denominator =
            2.0 * lambda * -exp_m1((periods - 1) as f64 * log_decay) / -exp_m1(2.0 * log_decay);
        let scales: Vec<f64> = weights.iter().map(|w| sqrt(w / denominator)).collect();
        let x = Matrix::from_fn(periods, n, |t, i| {
            (self.returns[(t, i)] - mean[i]) * scales[t]
        });
        x.tr_mul(&x)
    }

    /// The semicovariance below each asset's mean, divided by `T − 1`, for `None`, or below a
    /// fixed threshold, divided by `T`.
    fn semicovariance(&self, threshold: Option<f64>) -> Matrix {
        let (periods, n) = (self.returns.nrows(), self.returns.ncols());
        let floor = match threshold {
            Some(threshold) => vec![threshold; n],
            None => self.returns.row_mean(),
        };
        let below = Matrix::from_fn(periods, n, |t, i| min0(self.returns[(t, i)] - floor[i]));
        let degrees = periods - usize::from(threshold.is_none());
        &below.tr_mul(&below) / degrees as f64
    }

    /// The Ledoit-Wolf shrinkage intensity toward `target`, from the `1/T` moments of the
    /// centered returns, divided by a power of two near the largest. Refuses (9) a constant asset
    /// with `Target::ConstantCorrelation`.
    pub fn ledoit_wolf(&self, target: Target) -> Result<f64, Refusal> {
        if target == Target::ConstantCorrelation {
            if let Some(asset) = self.find_zero_variance() {
                return Err(Refusal::ZeroVariance(asset));
            }
        }
        let n = self.returns.ncols();
        let mean = self.returns.row_mean();
        let x = Matrix::from_fn(self.returns.nrows(), n, |t, i| {
            self.returns[(t, i)] - mean[i]
        });
        let exponent = binary_exponent(x.amax());
        let x = x.map(|v| pow2_scaled(v, -exponent));
        let t = x.nrows() as f64;
        let sample = &(&x.transpose() * &x) / t;

        // π_ij, the variance of the sample covariance's entry ij, times T.
        let mut pi = Matrix::zeros(n, n);
        for row in x.row_iter() {
            for i in 0..n {
                for j in 0..n {
                    let d = row[i] * row[j] - sample[(i, j)];
                    pi[(i, j)] += d * d;
                }
            }
        }
        let pi = &pi / t;
        let (error, distance) = match target {
            Target::ConstantVariance => {
                let mean_variance = sample.trace() / n as f64;
                let identity = Matrix::identity(n);
                (
                    pi.sum(),
                    (&sample - &(mean_variance * &identity)).norm_squared(),
                )
            }
            Target::ConstantCorrelation => {
                let r = average_correlation(&sample);
                let sd: Vec<f64> = sample.diagonal().into_iter().map(sqrt).collect();
                // ρ, the target's covariance with the sample covariance: the variances' own
                // π_ii, and off the diagonal θ_ij = Σ_t (x_ti² − s_ii)·x_ti·x_tj / T, the
                // covariance of x_ti² with x_ti·x_tj.
                let mut rho = pi.trace();
                for i in 0..n {
                    for j in (0..n).filter(|&j| j != i) {
                        let theta = sum_of(
                            x.row_iter()
                                .map(|row| (row[i] * row[i] - sample[(i, i)]) * row[i] * row[j]),
                        ) / t;
                        rho += r * sd[j] / sd[i] * theta;
                    }
                }
                let distance = (&sample - &constant_correlation(&sample)).norm_squared();
                (pi.sum() - rho, distance)
            }
        };
        Ok(if distance > 0.0 {
            clamp01(error / t / distance)
        } else {
            0.0
        })
    }
}

/// The average correlation between distinct assets in `cov`. It's NaN for one asset.
fn average_correlation(cov: &Matrix) -> f64 {
    let n = cov.ncols();
    let sd: Vec<f64> = cov.diagonal().into_iter().map(sqrt).collect();
    let mut total = 0.0;
    for i in 0..n {
        for j in (0..n).filter(|&j| j != i) {
            total += cov[(i, j)] / sd[i] / sd[j];
        }
    }
    total / (n * (n - 1)) as f64
}

/// The constant correlation target for `cov`: its variances, and the average correlation
/// times the two standard deviations off the diagonal.
fn constant_correlation(cov: &Matrix) -> Matrix {
    let n = cov.ncols();
    if n == 1 {
        return cov.clone();
    }
    let r = average_correlation(cov);
    let sd: Vec<f64> = cov.diagonal().into_iter().map(sqrt).collect();
    Matrix::from_fn(n, n, |i, j| {
        if i == j {
            cov[(i, i)]
        } else {
            r * sd[i] * sd[j]
        }
    })
}
