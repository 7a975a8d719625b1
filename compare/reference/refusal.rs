// Document 01, 'Causes': the refusals 1 to 14, and document 02's 16, with what is returned with each.

#[derive(Debug, Clone, Copy, PartialEq)]
pub enum Refusal {
    NoAssets,
    TooLarge,
    /// The periods.
    TooFewPeriods(usize),
    WrongLength,
    /// The first row and column, of the returns, of the given matrix or of the prices.
    NotFinite(usize, usize),
    CovarianceNotFinite,
    BadSetting(Field),
    NotTheSample,
    /// The first column.
    ZeroVariance(usize),
    /// The given side.
    WrongSide(usize),
    /// The first row and column.
    Asymmetric(usize, usize),
    /// The smallest eigenvalue.
    Indefinite(f64),
    NotDecomposed,
    Singular,
    /// The first row and column. Document 02, Paper 4.
    NonPositivePrice(usize, usize),
}

/// How many the five calls of document 01 have: their numbers begin at 1.
pub const REFUSALS: usize = 14;
/// The largest number of these. 15, 17 and 18 are about question files, and no call on floats answers
/// them.
pub const LARGEST_NUMBER: usize = 16;

/// The setting that refusal 7 names.
#[derive(Debug, Clone, Copy, PartialEq)]
pub enum Field {
    Regularization = 1,
    Shrinkage = 2,
    HalfLife = 3,
    Threshold = 4,
    SweepLimit = 5,
    /// Document 02, Paper 1.
    Decay = 6,
}

/// All that is returned with a refusal.
#[derive(Debug, Clone, Copy, PartialEq)]
pub enum Detail {
    Nothing,
    /// A count, a field, a column or a side.
    Whole(usize),
    /// A row and a column.
    Entry(usize, usize),
    Value(f64),
}

impl Refusal {
    /// The documents' number of the cause.
    pub const fn number(self) -> usize {
        match self {
            Refusal::NoAssets => 1,
            Refusal::TooLarge => 2,
            Refusal::TooFewPeriods(_) => 3,
            Refusal::WrongLength => 4,
            Refusal::NotFinite(..) => 5,
            Refusal::CovarianceNotFinite => 6,
            Refusal::BadSetting(_) => 7,
            Refusal::NotTheSample => 8,
            Refusal::ZeroVariance(_) => 9,
            Refusal::WrongSide(_) => 10,
            Refusal::Asymmetric(..) => 11,
            Refusal::Indefinite(_) => 12,
            Refusal::NotDecomposed => 13,
            Refusal::Singular => 14,
            Refusal::NonPositivePrice(..) => 16,
        }
    }

    pub fn detail(self) -> Detail {
        match self {
            Refusal::TooFewPeriods(periods) => Detail::Whole(periods),
            Refusal::NotFinite(row, column)
            | Refusal::Asymmetric(row, column)
            | Refusal::NonPositivePrice(row, column) => Detail::Entry(row, column),
            Refusal::BadSetting(field) => Detail::Whole(field as usize),
            Refusal::ZeroVariance(column) => Detail::Whole(column),
            Refusal::WrongSide(side) => Detail::Whole(side),
            Refusal::Indefinite(value) => Detail::Value(value),
            Refusal::NoAssets
            | Refusal::TooLarge
            | Refusal::WrongLength
            | Refusal::CovarianceNotFinite
            | Refusal::NotTheSample
            | Refusal::NotDecomposed
            | Refusal::Singular => Detail::Nothing,
        }
    }

    /// The number with what is returned, in words.
    pub fn told(self) -> String {
        let number = self.number();
        match self.detail() {
            Detail::Nothing => format!("refused {number}"),
            Detail::Whole(whole) => format!("refused {number} at {whole}"),
            Detail::Entry(i, j) => format!("refused {number} at {i} {j}"),
            Detail::Value(value) => format!("refused {number} at {value}"),
        }
    }
}
