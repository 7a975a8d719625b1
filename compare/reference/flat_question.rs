// Question records in numbers, as include/engine.h has them, and the two calls of document 02, Paper 5,
// over these: a draft, which is written, and what is lent where a file is read.

use crate::covariance::Target;
use crate::flat::{flat_target, Flat};
use crate::question::{read_question, write_question, Asked, Estimate, Question, Shrinkage};

/// What is answered where a number stands for no kind.
pub const NO_KIND: usize = 100;

/// A kind each, with its value.
#[derive(Debug, Clone, Copy, PartialEq)]
pub struct FlatQuestion {
    pub assets: usize,
    pub periods: usize,
    pub estimate: (u32, u64),
    pub shrinkage: (u32, u64),
    pub regularization: (u32, u64),
    pub limit: (u32, usize),
    pub asked: u32,
}

impl FlatQuestion {
    /// As it is read: a value that the kind does not have is 0.
    pub fn of(question: &Question) -> Self {
        FlatQuestion::with_unread(question, 0)
    }

    /// As it may be given to be written: what stands for a value that the kind does not have is not
    /// read.
    pub fn with_unread(question: &Question, unread: u64) -> Self {
        FlatQuestion {
            assets: question.assets,
            periods: question.periods,
            estimate: match question.estimate {
                Estimate::Sample => (0, unread),
                Estimate::Given => (1, unread),
                Estimate::HalfLife(bits) => (2, bits),
                Estimate::Semi => (3, unread),
                Estimate::SemiBelow(bits) => (4, bits),
                Estimate::Factor(bits) => (5, bits),
            },
            shrinkage: match question.shrinkage {
                Shrinkage::Unshrunk => (0, unread),
                Shrinkage::Fixed(bits) => (1, bits),
                Shrinkage::LedoitWolf(target) => (2 + flat_target(target), unread),
            },
            regularization: question
                .regularization
                .map_or((0, unread), |bits| (1, bits)),
            limit: question
                .limit
                .map_or((0, unread as usize), |limit| (1, limit)),
            asked: match question.asked {
                Asked::Covariance => 0,
                Asked::WeightedMean => 1,
                Asked::JamesStein => 2,
                Asked::BayesStein => 3,
            },
        }
    }

    /// The record, if every number stands for a kind.
    pub fn question(&self) -> Option<Question> {
        Some(Question {
            assets: self.assets,
            periods: self.periods,
            estimate: match self.estimate {
                (0, _) => Estimate::Sample,
                (1, _) => Estimate::Given,
                (2, bits) => Estimate::HalfLife(bits),
                (3, _) => Estimate::Semi,
                (4, bits) => Estimate::SemiBelow(bits),
                (5, bits) => Estimate::Factor(bits),
                _ => return None,
            },
            shrinkage: match self.shrinkage {
                (0, _) => Shrinkage::Unshrunk,
                (1, bits) => Shrinkage::Fixed(bits),
                (2, _) => Shrinkage::LedoitWolf(Target::ConstantVariance),
                (3, _) => Shrinkage::LedoitWolf(Target::ConstantCorrelation),
                _ => return None,
            },
            regularization: some(self.regularization)?,
            limit: some(self.limit)?,
            asked: match self.asked {
                0 => Asked::Covariance,
                1 => Asked::WeightedMean,
                2 => Asked::JamesStein,
                3 => Asked::BayesStein,
                _ => return None,
            },
        })
    }

    pub fn bits(&self) -> [u64; 3] {
        [self.estimate.1, self.shrinkage.1, self.regularization.1]
    }

    pub fn wholes(&self) -> [usize; 8] {
        [
            self.assets,
            self.periods,
            self.estimate.0 as usize,
            self.shrinkage.0 as usize,
            self.regularization.0 as usize,
            self.limit.0 as usize,
            self.limit.1,
            self.asked as usize,
        ]
    }
}

/// 0 stands for none, 1 for the value.
fn some<T>((kind, value): (u32, T)) -> Option<Option<T>> {
    match kind {
        0 => Some(None),
        1 => Some(Some(value)),
        _ => None,
    }
}

/// The writing with all its arguments.
#[derive(Debug, Clone)]
pub struct Draft {
    pub record: FlatQuestion,
    pub returns: Vec<u64>,
    pub given: Vec<u64>,
    /// The output before it.
    pub out: Vec<u8>,
}

impl Draft {
    /// What it answers, and the whole output after it.
    pub fn written(&self) -> (Flat, Vec<u8>) {
        let mut out = self.out.clone();
        let answer = match self.record.question() {
            Some(question) => write_question(&question, &self.returns, &self.given, &mut out),
            None => Err(NO_KIND),
        };
        let (number, bytes) = match answer {
            Ok(bytes) => (0, bytes),
            Err(number) => (number as u32, 0),
        };
        let flat = Flat {
            number,
            numbers: [0.0; 2],
            wholes: [bytes, 0],
        };
        (flat, out)
    }
}

/// What is lent where a file is read, before it or after it.
#[derive(Debug, Clone, PartialEq)]
pub struct Lent {
    pub returns: Vec<u64>,
    pub given: Vec<u64>,
    pub bits: [u64; 3],
    pub wholes: [usize; 8],
}

impl Lent {
    /// The number that is answered to the file, 0 or a refusal's, and what is lent after it.
    pub fn read(&self, file: &[u8]) -> (u32, Lent) {
        let mut lent = self.clone();
        match read_question(file, &mut lent.returns, &mut lent.given) {
            Ok(question) => {
                let flat = FlatQuestion::of(&question);
                (lent.bits, lent.wholes) = (flat.bits(), flat.wholes());
                (0, lent)
            }
            Err(number) => (number as u32, lent),
        }
    }
}
