// The comparison copy: the source's functions carried over as they stand, over a small stand-in
// for its matrices, with document 01's float leaves, sweep limit, counts and refusals, and
// document 02's changes as far as they are made. `rustc` alone builds it.

pub mod calls;
pub mod covariance;
pub mod eigen;
pub mod exam;
pub mod expected_returns;
pub mod flat;
pub mod flat_question;
pub mod input;
pub mod leaves;
pub mod matrix;
pub mod methods;
pub mod prices;
pub mod question;
pub mod refusal;
pub mod returns;
pub mod screen;

/// The largest side of a matrix: the most assets, and the largest given side.
pub const MAX_SIDE: usize = 24;
/// The fewest and the most periods.
pub const MIN_PERIODS: usize = 2;
pub const MAX_PERIODS: usize = 4096;
/// The fewest and the most rows of prices: one more than the periods of the returns.
pub const MIN_PRICE_ROWS: usize = MIN_PERIODS + 1;
pub const MAX_PRICE_ROWS: usize = MAX_PERIODS + 1;
/// The largest sweep limit, which is the source's own.
pub const MAX_SWEEPS: usize = 100;
