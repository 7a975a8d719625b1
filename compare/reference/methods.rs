// Carried over from methods/mod.rs of the source; see NOTICE.
// `correlation` only.

use crate::leaves::{is_finite, sqrt};
use crate::matrix::Matrix;
use crate::refusal::Refusal;

/// Splits a covariance into the correlation matrix and the volatilities. Refuses (14) a
/// correlation that is not finite.
pub fn correlation(cov: &Matrix) -> Result<(Matrix, Vec<f64>), Refusal> {
    let volatilities: Vec<f64> = cov.diagonal().into_iter().map(sqrt).collect();
    // Dividing by each volatility in turn, so that tiny volatilities' product can't underflow.
    let correlation = Matrix::from_fn(cov.nrows(), cov.ncols(), |i, j| {
        cov[(i, j)] / volatilities[i] / volatilities[j]
    });
    if correlation.entries().iter().any(|&c| !is_finite(c)) {
        return Err(Refusal::Singular);
    }
    Ok((correlation, volatilities))
}
