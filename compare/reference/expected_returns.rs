// Carried over from expected_returns.rs of the source; see NOTICE.
// The exponentially weighted, James-Stein and Bayes-Stein means, with `Moments` and `gather`.
// The two Stein means also report intensity, target and counts.

use crate::covariance::Decay;
use crate::eigen::SymmetricEigen;
use crate::leaves::{
    abs, amax, binary_exponent, clamp01, exp, max0, pow2_scaled, sqrt, sum, sum_of,
};
use crate::matrix::{dot, max, min, norm_squared, Matrix};
use crate::methods::correlation;
use crate::refusal::Refusal;
use crate::returns::Returns;

/// What the two Stein means report. The target is in return units.
#[derive(Debug, Clone, Copy)]
pub struct Shrunk {
    pub intensity: f64,
    pub target: f64,
    pub sweeps: usize,
    pub rotations: usize,
}

impl Returns {
    /// The exponentially weighted mean of each asset, the last row weighted most. The source's
    /// `exponentially_weighted_mean` is this for a half-life, `exponentially_weighted_mean_decay` for
    /// a decay factor.
    pub fn weighted_mean(&self, decay: Decay) -> Result<Vec<f64>, Refusal> {
        let weights = exponential_weights(self.returns.nrows(), decay.log()?);
        Ok(self.weighted_means(&weights))
    }

    /// The sample means shrunk toward their average. Refuses (14) where the decomposition fails;
    /// with every mean equal to the average, nothing is decomposed.
    pub fn james_stein_mean(&self, limit: usize) -> Result<(Vec<f64>, Shrunk), Refusal> {
        let exponent = binary_exponent(self.returns.amax());
        let moments = Moments::new(self, vec![exponent; self.returns.ncols()]);
        let target = sum(&moments.mean) / moments.mean.len() as f64;
        let deviations: Vec<f64> = moments.mean.iter().map(|m| m + -target).collect();
        let largest = amax(&deviations);
        let (mut sweeps, mut rotations) = (0, 0);
        let alpha = if largest == 0.0 {
            0.0
        } else {
            let eigen = SymmetricEigen::new(&moments.cov, limit).ok_or(Refusal::Singular)?;
            (sweeps, rotations) = (eigen.sweeps, eigen.rotations);
            let excess = moments.cov.trace() - 2.0 * max(&eigen.values);
            // The deviations divided by a power of two near the largest, exactly, so a spread
            // far below the means can't underflow to 0: ‖μ − μ̄1‖² = spread · 2^(2·shift).
            let shift = binary_exponent(largest);
            let scaled: Vec<f64> = deviations.iter().map(|&d| pow2_scaled(d, -shift)).collect();
            let spread = norm_squared(&scaled);
            clamp01(pow2_scaled(excess / (moments.periods * spread), -2 * shift))
        };
        let report = Shrunk {
            intensity: alpha,
            target: pow2_scaled(target, exponent),
            sweeps,
            rotations,
        };
        Ok((moments.shrunk(target, alpha), report))
    }

    /// The sample means shrunk toward the mean of the minimum variance portfolio (Jorion, 1986).
    /// Refuses a constant asset (9), then a correlation matrix that is not finite, that cannot be
    /// decomposed or that is singular to rounding (14).
    pub fn bayes_stein_mean(&self, limit: usize) -> Result<(Vec<f64>, Shrunk), Refusal> {
        let n = self.returns.ncols();
        // Each asset's returns divided by a power of two near their largest, exactly, so no
        // asset's variance underflows next to another's: Σ = SDCDS for S the powers of two and
        // D the volatilities in these units.
        let exponents: Vec<i32> = (0..n)
            .map(|i| binary_exponent(self.returns.column_amax(i)))
            .collect();
        let moments = Moments::new(self, exponents);
        let exponents = &moments.exponents;
        // The rule of `Returns::find_zero_variance`, which doesn't depend on the scale.
        if let Some(asset) = (0..n).find(|&i| {
            let largest = pow2_scaled(self.returns.column_amax(i), -exponents[i]);
            sqrt(moments.cov[(i, i)]) <= 1e-10 * largest
        }) {
            return Err(Refusal::ZeroVariance(asset));
        }
        let (correlation, volatilities) = correlation(&moments.cov)?;
        let eigen = SymmetricEigen::new(&correlation, limit).ok_or(Refusal::Singular)?;
        if min(&eigen.values) <= n as f64 * f64::EPSILON * max(&eigen.values) {
            return Err(Refusal::Singular);
        }
        // xᵀΣ⁻¹y = (D⁻¹S⁻¹x)ᵀC⁻¹(D⁻¹S⁻¹y) = Σₑ (vₑ·x')(vₑ·y')/λₑ, for x' = D⁻¹S⁻¹x and
        // y' = D⁻¹S⁻¹y in correlation units, from their projections onto the eigenvectors.
        let project =
            |x: &[f64]| -> Vec<f64> { (0..n).map(|e| dot(&eigen.vectors.column(e), x)).collect() };
        let form =
            |x: &[f64], y: &[f64]| -> f64 { sum_of((0..n).map(|e| x[e] * y[e] / eigen.values[e])) };
        // D⁻¹S⁻¹1 and D⁻¹S⁻¹μ, each as a vector and a power of two.
        let ones: Vec<(f64, i32)> = (0..n)
            .map(|i| (1.0 / volatilities[i], -exponents[i]))
            .collect();
        let ones = gather(&ones);
        let means: Vec<(f64, i32)> = (0..n)
            .map(|i| (moments.mean[i] / volatilities[i], 0))
            .collect();
        let means = gather(&means);
        let projected_ones = project(&ones.0);
        // μ₀ = ratio · 2^(means − ones).
        let ratio =
            form(&projected_ones, &project(&means.0)) / form(&projected_ones, &projected_ones);
        // D⁻¹S⁻¹(μ − μ₀1), in the means' scale.
        let deviations: Vec<f64> = (0..n).map(|i| means.0[i] - ratio * ones.0[i]).collect();
        let deviations = project(&deviations);
        let distance = max0(form(&deviations, &deviations));
        let distance = moments.periods * pow2_scaled(distance, 2 * means.1);
        let alpha = (n as f64 + 2.0) / (n as f64 + 2.0 + distance);
        let target = pow2_scaled(ratio, means.1 - ones.1);
        let mean = (0..n)
            .map(|i| pow2_scaled((1.0 - alpha) * moments.mean[i], exponents[i]) + alpha * target)
            .collect();
        let report = Shrunk {
            intensity: alpha,
            target,
            sweeps: eigen.sweeps,
            rotations: eigen.rotations,
        };
        Ok((mean, report))
    }

    /// Each asset's mean under `weights`, one per row. The exponentially weighted covariance
    /// centers on these too.
    pub fn weighted_means(&self, weights: &[f64]) -> Vec<f64> {
        let total = sum(weights);
        (0..self.returns.ncols())
            .map(|i| {
                // Divided by a power of two near the largest return, exactly, so the mean scales
                // exactly with the returns.
                let exponent = binary_exponent(self.returns.column_amax(i));
                let sum = sum_of(
                    weights
                        .iter()
                        .zip(self.returns.column(i))
                        .map(|(w, r)| w * pow2_scaled(r, -exponent)),
                );
                pow2_scaled(sum / total, exponent)
            })
            .collect()
    }
}

/// The sample mean and covariance of the returns, each asset's divided by `2^exponents[i]`,
/// exactly, so that their squares can't overflow or underflow.
struct Moments {
    exponents: Vec<i32>,
    mean: Vec<f64>,
    cov: Matrix,
    periods: f64,
}

impl Moments {
    fn new(data: &Returns, exponents: Vec<i32>) -> Self {
        let (rows, n) = (data.returns.nrows(), data.returns.ncols());
        let scaled = Matrix::from_fn(rows, n, |t, i| {
            pow2_scaled(data.returns[(t, i)], -exponents[i])
        });
        let mean = scaled.row_mean();
        let centered = Matrix::from_fn(rows, n, |t, i| scaled[(t, i)] + -mean[i]);
        let periods = rows as f64;
        let cov = &centered.tr_mul(&centered) / (periods - 1.0);
        Moments {
            exponents,
            mean,
            cov,
            periods,
        }
    }

    /// `(1 − α)μ + α·target`, in the returns' scale, for exponents that are all the same. At
    /// `α = 0` it's the sample mean exactly.
    fn shrunk(&self, target: f64, alpha: f64) -> Vec<f64> {
        self.mean
            .iter()
            .zip(&self.exponents)
            .map(|(&m, &exponent)| pow2_scaled(m + alpha * (target - m), exponent))
            .collect()
    }
}

/// Entries `mᵢ·2^kᵢ` as a vector and one power of two, the vector's largest entry near 1, so
/// none overflows or underflows on the way unless it's negligible next to the largest.
fn gather(entries: &[(f64, i32)]) -> (Vec<f64>, i32) {
    let exponent = entries
        .iter()
        .filter(|(m, _)| *m != 0.0)
        .map(|&(m, k)| binary_exponent(abs(m)) + k)
        .max()
        .unwrap_or(0);
    let vector = entries
        .iter()
        .map(|&(m, k)| pow2_scaled(m, k - exponent))
        .collect();
    (vector, exponent)
}

/// The weights `λ^(T−1−t)` of `periods` rows for `λ = e^log_decay`, the last row's 1.
pub fn exponential_weights(periods: usize, log_decay: f64) -> Vec<f64> {
    (0..periods)
        .map(|t| exp((periods - 1 - t) as f64 * log_decay))
        .collect()
}
