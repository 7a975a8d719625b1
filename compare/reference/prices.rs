// Document 02, Paper 4: the call that takes prices and fills returns, over flat slices, with its
// refusals in their order; and an input of it. Lengths and counts may be any `usize`. A refusal leaves
// the return slice as it was.

use crate::input::UNTOUCHED;
use crate::matrix::Matrix;
use crate::refusal::Refusal;
use crate::returns::Returns;
use crate::{MAX_PRICE_ROWS, MAX_SIDE, MIN_PRICE_ROWS};

/// Fills the first `(rows - 1) × n` numbers of `returns`.
pub fn returns_from_prices(
    prices: &[f64],
    n: usize,
    rows: usize,
    returns: &mut [f64],
) -> Result<(), Refusal> {
    check_shape(n, rows)?;
    let needed = (rows - 1) * n;
    if prices.len() != rows * n || returns.len() < needed {
        return Err(Refusal::WrongLength);
    }
    let matrix = Returns::prices_matrix(&Matrix::from_row_slice(rows, n, prices))?;
    returns[..needed].copy_from_slice(matrix.entries());
    Ok(())
}

/// 1, 2, 3. After it, products of the counts are small.
fn check_shape(n: usize, rows: usize) -> Result<(), Refusal> {
    if n == 0 {
        return Err(Refusal::NoAssets);
    }
    if n > MAX_SIDE || rows > MAX_PRICE_ROWS {
        return Err(Refusal::TooLarge);
    }
    if rows < MIN_PRICE_ROWS {
        return Err(Refusal::TooFewPeriods(rows));
    }
    Ok(())
}

/// The call with all its arguments.
#[derive(Debug, Clone)]
pub struct Prices {
    pub prices: Vec<f64>,
    pub n: usize,
    pub rows: usize,
    /// The return slice before the call.
    pub returns: Vec<f64>,
}

impl Prices {
    /// Whole rows of `n` prices, and an untouched return slice one number longer than needed.
    pub fn new(prices: &[f64], n: usize) -> Self {
        let rows = prices.len() / n;
        Prices {
            prices: prices.to_vec(),
            n,
            rows,
            returns: vec![UNTOUCHED; rows.saturating_sub(1) * n + 1],
        }
    }

    /// How many returns there are, for any counts.
    pub fn needed(&self) -> usize {
        self.rows.saturating_sub(1).saturating_mul(self.n)
    }

    /// How many numbers of the return slice are filled where `number` is answered: 0 where the call
    /// accepts, else a refusal's.
    pub fn filled(&self, number: usize) -> usize {
        match number {
            0 => self.needed().min(self.returns.len()),
            _ => 0,
        }
    }

    /// Whether the return slice after a call that answers `number` has the very bits of the one before
    /// where it is not filled: everywhere after a refusal.
    pub fn kept(&self, number: usize, after: &[f64]) -> bool {
        let filled = self.filled(number);
        let before = self.returns[filled..].iter().map(|x| x.to_bits());
        before.eq(after[filled..].iter().map(|x| x.to_bits()))
    }

    /// What the call answers, and the whole return slice after it.
    pub fn answered(&self) -> (Result<(), Refusal>, Vec<f64>) {
        let mut returns = self.returns.clone();
        let answer = returns_from_prices(&self.prices, self.n, self.rows, &mut returns);
        (answer, returns)
    }

    /// The returns, or the refusal, in words.
    pub fn told(&self) -> String {
        let (answer, returns) = self.answered();
        match answer {
            Ok(()) => {
                let numbers = returns[..self.filled(0)].iter();
                let words: Vec<String> = numbers.map(|x| format!("{x:?}")).collect();
                words.join(" ")
            }
            Err(refusal) => refusal.told(),
        }
    }
}
