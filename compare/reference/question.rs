// Document 02, Paper 5: the question record, which stands between the reader and the marking, with the
// returns and the given entries beside it. Numbers are bits, so that every NaN comes back as it was.
// The writer asks which records a file may hold, by the rules of document 01, 'The exam program', and
// puts the kinds down one after another.

use crate::covariance::Target;
use crate::exam::{read, Malformed, FILE_ASSETS, FILE_PERIODS, MALFORMED};
use crate::refusal::Refusal;

/// The number of a record that breaks a rule of the format, or has a given matrix of 0 assets.
pub const BROKEN_RULE: usize = 17;
/// The number of an output that is too short for the file.
pub const SHORT_OUTPUT: usize = 18;

#[derive(Debug, Clone, Copy, PartialEq)]
pub struct Question {
    pub assets: usize,
    pub periods: usize,
    pub estimate: Estimate,
    pub shrinkage: Shrinkage,
    pub regularization: Option<u64>,
    /// `None` is a file without kind 10, which is marked as 100 is, but is another file.
    pub limit: Option<usize>,
    pub asked: Asked,
}

#[derive(Debug, Clone, Copy, PartialEq)]
pub enum Estimate {
    Sample,
    Given,
    HalfLife(u64),
    /// Below each asset's mean.
    Semi,
    /// Below a threshold.
    SemiBelow(u64),
    /// Document 02, Paper 1.
    Factor(u64),
}

#[derive(Debug, Clone, Copy, PartialEq)]
pub enum Shrinkage {
    Unshrunk,
    Fixed(u64),
    LedoitWolf(Target),
}

#[derive(Debug, Clone, Copy, PartialEq)]
pub enum Asked {
    Covariance,
    WeightedMean,
    JamesStein,
    BayesStein,
}

/// A question record with its returns and its given entries.
#[derive(Debug, Clone, PartialEq)]
pub struct Paper {
    pub question: Question,
    pub returns: Vec<u64>,
    pub given: Vec<u64>,
}

/// Fills the front of `out` with the file and answers its length, or refuses 17 or 18.
pub fn write_question(
    question: &Question,
    returns: &[u64],
    given: &[u64],
    out: &mut [u8],
) -> Result<usize, usize> {
    if !question.fits_slices(returns.len(), given.len()) || !question.fits_what_is_asked() {
        return Err(BROKEN_RULE);
    }
    let file = file(question, returns, given);
    let front = out.get_mut(..file.len()).ok_or(SHORT_OUTPUT)?;
    front.copy_from_slice(&file);
    Ok(file.len())
}

/// The record of a file, whose numbers fill the fronts of the two slices, or 15, or 4 where one of
/// them is too short.
pub fn read_question(
    file: &[u8],
    returns: &mut [u64],
    given: &mut [u64],
) -> Result<Question, usize> {
    let paper = read(file).map_err(|Malformed| MALFORMED)?;
    let short = Refusal::WrongLength.number();
    let returns = returns.get_mut(..paper.returns.len()).ok_or(short)?;
    let given = given.get_mut(..paper.given.len()).ok_or(short)?;
    returns.copy_from_slice(&paper.returns);
    given.copy_from_slice(&paper.given);
    Ok(paper.question)
}

impl Question {
    /// The counts are small, and the slices are as long as they say. Without given entries, a file
    /// has no given matrix, so there is none of 0 assets.
    fn fits_slices(&self, returns: usize, given: usize) -> bool {
        let (n, t) = (self.assets, self.periods);
        if n > FILE_ASSETS || t > FILE_PERIODS {
            return false;
        }
        let entries = match self.estimate {
            Estimate::Given => n > 0 && given == n * n,
            _ => given == 0,
        };
        returns == t * n && entries
    }

    /// A limit is one byte, and no setting stands where the question takes none.
    fn fits_what_is_asked(&self) -> bool {
        let byte = self.limit.is_none_or(|limit| limit <= 255);
        let adjusted = self.shrinkage != Shrinkage::Unshrunk || self.regularization.is_some();
        byte && match (self.asked, self.estimate) {
            (Asked::Covariance, Estimate::Given) => true,
            (Asked::Covariance, _) => self.limit.is_none(),
            (Asked::WeightedMean, Estimate::HalfLife(_) | Estimate::Factor(_)) => {
                !adjusted && self.limit.is_none()
            }
            (Asked::JamesStein | Asked::BayesStein, Estimate::Sample) => !adjusted,
            _ => false,
        }
    }

    /// How long the file is, by its kinds: the smallest output.
    pub fn length(&self, returns: usize, given: usize) -> usize {
        const NUMBER: usize = 9;
        let regularization = self.regularization.map_or(0, |_| NUMBER);
        let shrinkage = match self.shrinkage {
            Shrinkage::Unshrunk => 0,
            Shrinkage::Fixed(_) => NUMBER,
            Shrinkage::LedoitWolf(_) => 2,
        };
        let estimate = match self.estimate {
            Estimate::Sample => 0,
            Estimate::Given => NUMBER * given,
            Estimate::Semi => 1,
            Estimate::HalfLife(_) | Estimate::SemiBelow(_) | Estimate::Factor(_) => NUMBER,
        };
        let limit = self.limit.map_or(0, |_| 2);
        5 + NUMBER * returns + regularization + shrinkage + estimate + limit + 2
    }
}

/// The kinds in their order, 12 between 10 and 11.
fn file(question: &Question, returns: &[u64], given: &[u64]) -> Vec<u8> {
    let mut file = vec![1];
    file.extend((question.assets as u16).to_le_bytes());
    file.extend((question.periods as u16).to_le_bytes());
    numbers(&mut file, 2, returns);
    numbers(&mut file, 3, question.regularization.as_slice());
    match question.shrinkage {
        Shrinkage::Unshrunk => {}
        Shrinkage::Fixed(intensity) => numbers(&mut file, 4, &[intensity]),
        Shrinkage::LedoitWolf(Target::ConstantVariance) => file.extend([5, 0]),
        Shrinkage::LedoitWolf(Target::ConstantCorrelation) => file.extend([5, 1]),
    }
    match question.estimate {
        Estimate::Sample | Estimate::Factor(_) => {}
        Estimate::HalfLife(half_life) => numbers(&mut file, 6, &[half_life]),
        Estimate::Semi => file.push(7),
        Estimate::SemiBelow(threshold) => numbers(&mut file, 8, &[threshold]),
        Estimate::Given => numbers(&mut file, 9, given),
    }
    if let Some(limit) = question.limit {
        file.extend([10, limit as u8]);
    }
    if let Estimate::Factor(factor) = question.estimate {
        numbers(&mut file, 12, &[factor]);
    }
    file.extend(match question.asked {
        Asked::Covariance => [11, 0],
        Asked::WeightedMean => [11, 1],
        Asked::JamesStein => [11, 2],
        Asked::BayesStein => [11, 3],
    });
    file
}

fn numbers(file: &mut Vec<u8>, kind: u8, numbers: &[u64]) {
    for bits in numbers {
        file.push(kind);
        file.extend(bits.to_le_bytes());
    }
}
