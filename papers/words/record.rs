// The question record: what a question file carries. A number is kept as the bits of its f64, so
// that every NaN stays what it is.

#[derive(Clone, Debug, PartialEq)]
pub struct Record {
    pub assets: usize,
    pub periods: usize,
    /// Row by row, a row for each period.
    pub returns: Vec<u64>,
    pub estimate: Estimate,
    pub shrinkage: Shrinkage,
    pub regularization: Option<u64>,
    /// The sweep limit; a file without one is another file than one with the limit 100.
    pub limit: Option<usize>,
    pub question: Question,
}

#[derive(Clone, Debug, PartialEq)]
pub enum Estimate {
    Sample,
    /// A matrix with as many rows and columns as there are assets, row by row.
    Given(Vec<u64>),
    HalfLife(u64),
    Semi,
    Threshold(u64),
    DecayFactor(u64),
}

#[derive(Clone, Debug, PartialEq)]
pub enum Shrinkage {
    Unshrunk,
    Fixed(u64),
    LedoitWolf(Target),
}

#[derive(Clone, Copy, Debug, PartialEq)]
pub enum Target {
    Variance,
    Correlation,
}

#[derive(Clone, Copy, Debug, PartialEq)]
pub enum Question {
    Covariance,
    WeightedMean,
    JamesStein,
    BayesStein,
}
