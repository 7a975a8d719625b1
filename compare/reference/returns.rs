// Carried over from returns.rs of the source; see NOTICE.
// `Returns` with its sample covariance, the first entry that is not finite, the rule of zero variance,
// and the returns of prices. Shapes and lengths are checked before, in calls.rs and prices.rs.

use crate::leaves::{is_finite, sqrt};
use crate::matrix::Matrix;
use crate::refusal::Refusal;

/// Asset returns, one row per period, with their sample covariance.
pub struct Returns {
    pub returns: Matrix,
    pub cov_matrix: Matrix,
}

impl Returns {
    /// Refuses an entry that is not finite (5), then a covariance that is not (6).
    pub fn new(returns: Matrix) -> Result<Self, Refusal> {
        Returns::validate(&returns)?;
        Returns::build(returns)
    }

    /// The returns of prices: refuses a price that is not finite (5), then one that is zero or
    /// negative (16), then a return that is infinite (5).
    pub fn prices_matrix(prices: &Matrix) -> Result<Matrix, Refusal> {
        Returns::validate(prices)?;
        if let Some((row, col)) = Returns::find(prices, |p| p <= 0.0) {
            return Err(Refusal::NonPositivePrice(row, col));
        }
        let returns = Returns::compute_returns(prices);
        Returns::validate(&returns)?;
        Ok(returns)
    }

    fn build(returns: Matrix) -> Result<Self, Refusal> {
        let cov_matrix = Returns::compute_covariance_matrix(&returns);
        if cov_matrix.entries().iter().any(|&x| !is_finite(x)) {
            return Err(Refusal::CovarianceNotFinite);
        }
        Ok(Returns {
            returns,
            cov_matrix,
        })
    }

    /// The first asset whose returns are constant to rounding.
    pub fn find_zero_variance(&self) -> Option<usize> {
        self.find_zero_variance_in(&self.cov_matrix)
    }

    /// The first asset whose variance in `cov`, estimated from the returns, is zero to rounding.
    pub fn find_zero_variance_in(&self, cov: &Matrix) -> Option<usize> {
        (0..cov.ncols()).find(|&i| {
            let scale = self.returns.column_amax(i);
            sqrt(cov[(i, i)]) <= 1e-10 * scale
        })
    }

    /// Checks that `data` has only finite values, for returns, for a given matrix and for prices.
    pub fn validate(data: &Matrix) -> Result<(), Refusal> {
        match Returns::find(data, |x| !is_finite(x)) {
            Some((row, col)) => Err(Refusal::NotFinite(row, col)),
            None => Ok(()),
        }
    }

    /// The `(row, col)` of the first value matching `predicate`, scanning row by row.
    pub fn find(data: &Matrix, predicate: impl Fn(f64) -> bool) -> Option<(usize, usize)> {
        (0..data.nrows())
            .flat_map(|row| (0..data.ncols()).map(move |col| (row, col)))
            .find(|&(row, col)| predicate(data[(row, col)]))
    }

    /// Each price over the one before, minus 1: one row fewer than there are of prices.
    pub fn compute_returns(prices: &Matrix) -> Matrix {
        let rows = prices.nrows().saturating_sub(1);
        Matrix::from_fn(rows, prices.ncols(), |t, j| {
            prices[(t + 1, j)] / prices[(t, j)] - 1.0
        })
    }

    fn compute_covariance_matrix(returns: &Matrix) -> Matrix {
        let mean = returns.row_mean();
        let mean_matrix = Matrix::from_fn(returns.nrows(), returns.ncols(), |_, i| mean[i]);
        let centered = returns - &mean_matrix;
        &(&centered.transpose() * &centered) / (returns.nrows() as f64 - 1.0)
    }
}
