// Document 01, 'The exam program', with document 02's kind 12: the question file as the documents
// word it, and the printed answer. The reader goes through the file record by record and keeps what
// it meets; the rules on what may stand beside what are asked afterwards. It gives the question record
// of document 02, Paper 5, in bits, of which the marking makes floats.

use crate::calls::{
    adjusted_covariance, bayes_stein_mean, exponentially_weighted_mean, james_stein_mean,
};
use crate::covariance::{Decay, Estimate, Settings, Shrinkage, Target};
use crate::leaves::bits;
use crate::question::{self, Asked, Paper, Question};
use crate::screen::screen;
use crate::MAX_SWEEPS;

/// The most assets and periods of a question file.
pub const FILE_ASSETS: usize = 8;
pub const FILE_PERIODS: usize = 128;

/// The number of a malformed paper.
pub const MALFORMED: usize = 15;

/// The file is no question.
pub struct Malformed;

/// What is printed of a file.
pub fn exam(file: &[u8]) -> Vec<u8> {
    let Ok(paper) = read(file) else {
        return refused(MALFORMED);
    };
    let (n, t) = (paper.question.assets, paper.question.periods);
    let settings = &settings(&paper.question);
    let columns = match paper.question.asked {
        Asked::Covariance => n,
        _ => 1,
    };
    let mut answer = vec![0.0; n * columns];
    let (returns, given) = (&floats(&paper.returns), &floats(&paper.given));
    let slice = &mut answer[..];
    let report = match paper.question.asked {
        Asked::Covariance => {
            adjusted_covariance(returns, n, t, settings, given, n, slice).map(|_| ())
        }
        Asked::WeightedMean => match settings.estimate {
            Estimate::ExponentiallyWeighted(decay) => {
                exponentially_weighted_mean(returns, n, t, decay, slice)
            }
            _ => unreachable!("question 1 has a half-life or a decay factor"),
        },
        Asked::JamesStein => james_stein_mean(returns, n, t, settings.limit, slice).map(|_| ()),
        Asked::BayesStein => bayes_stein_mean(returns, n, t, settings.limit, slice).map(|_| ()),
    };
    match report {
        Ok(()) => printed(n, columns, &answer),
        Err(refusal) => refused(refusal.number()),
    }
}

/// The number of a printed refusal, 0 for an answer.
pub fn outcome(text: &[u8]) -> usize {
    match text.strip_prefix(b"refused ") {
        Some(rest) => String::from_utf8_lossy(rest)
            .trim_end()
            .parse()
            .expect("a number"),
        None => 0,
    }
}

fn refused(number: usize) -> Vec<u8> {
    format!("refused {number}\n").into_bytes()
}

fn printed(n: usize, columns: usize, answer: &[f64]) -> Vec<u8> {
    let mut text = format!("ok {n} {columns}\n");
    for row in 0..n {
        for column in 0..columns {
            let x = answer[row * columns + column];
            let (bits, screen) = (bits(x), screen(x));
            text += &format!("{row} {column} {bits:016X} {screen}\n");
        }
    }
    text.into_bytes()
}

fn floats(numbers: &[u64]) -> Vec<f64> {
    numbers.iter().copied().map(f64::from_bits).collect()
}

/// The settings that a question record stands for.
fn settings(question: &Question) -> Settings {
    let weighted = |decay| Estimate::ExponentiallyWeighted(decay);
    let float = f64::from_bits;
    Settings {
        estimate: match question.estimate {
            question::Estimate::Sample => Estimate::Sample,
            question::Estimate::Given => Estimate::Given,
            question::Estimate::HalfLife(bits) => weighted(Decay::HalfLife(float(bits))),
            question::Estimate::Semi => Estimate::Semi,
            question::Estimate::SemiBelow(bits) => Estimate::SemiBelow(float(bits)),
            question::Estimate::Factor(bits) => weighted(Decay::Lambda(float(bits))),
        },
        shrinkage: match question.shrinkage {
            question::Shrinkage::Unshrunk => Shrinkage::Unshrunk,
            question::Shrinkage::Fixed(bits) => Shrinkage::Fixed(float(bits)),
            question::Shrinkage::LedoitWolf(target) => Shrinkage::LedoitWolf(target),
        },
        regularization: question.regularization.map(float),
        limit: question.limit.unwrap_or(MAX_SWEEPS),
    }
}

/// What stands in a file, in the order of its records.
#[derive(Default)]
struct Records {
    shape: Option<(usize, usize)>,
    returns: Vec<u64>,
    regularization: Option<u64>,
    fixed: Option<u64>,
    target: Option<Target>,
    half_life: Option<u64>,
    semi: bool,
    threshold: Option<u64>,
    given: Vec<u64>,
    limit: Option<u8>,
    factor: Option<u64>,
    question: Option<u8>,
}

/// Where a kind stands among the others: 12 between 10 and 11.
fn place(kind: u8) -> u8 {
    match kind {
        11 => 12,
        12 => 11,
        _ => kind,
    }
}

pub fn read(file: &[u8]) -> Result<Paper, Malformed> {
    let mut records = Records::default();
    let mut bytes = file;
    let mut last = 0;
    while !bytes.is_empty() {
        let [kind] = front(&mut bytes)?;
        let again = kind == last && kind != 2 && kind != 9;
        if place(kind) < place(last) || again {
            return Err(Malformed);
        }
        last = kind;
        records.take(kind, &mut bytes)?;
    }
    records.paper()
}

/// The first bytes, which are taken away.
fn front<const N: usize>(bytes: &mut &[u8]) -> Result<[u8; N], Malformed> {
    let (first, rest) = bytes.split_first_chunk().ok_or(Malformed)?;
    *bytes = rest;
    Ok(*first)
}

fn count(bytes: &mut &[u8]) -> Result<usize, Malformed> {
    Ok(u16::from_le_bytes(front(bytes)?).into())
}

fn number(bytes: &mut &[u8]) -> Result<u64, Malformed> {
    Ok(u64::from_le_bytes(front(bytes)?))
}

fn byte(bytes: &mut &[u8]) -> Result<u8, Malformed> {
    let [byte] = front(bytes)?;
    Ok(byte)
}

impl Records {
    fn take(&mut self, kind: u8, bytes: &mut &[u8]) -> Result<(), Malformed> {
        match kind {
            1 => self.shape = Some((count(bytes)?, count(bytes)?)),
            2 => self.returns.push(number(bytes)?),
            3 => self.regularization = Some(number(bytes)?),
            4 => self.fixed = Some(number(bytes)?),
            5 => {
                self.target = match byte(bytes)? {
                    0 => Some(Target::ConstantVariance),
                    1 => Some(Target::ConstantCorrelation),
                    _ => return Err(Malformed),
                }
            }
            6 => self.half_life = Some(number(bytes)?),
            7 => self.semi = true,
            8 => self.threshold = Some(number(bytes)?),
            9 => self.given.push(number(bytes)?),
            10 => self.limit = Some(byte(bytes)?),
            11 => self.question = Some(byte(bytes)?),
            12 => self.factor = Some(number(bytes)?),
            _ => return Err(Malformed),
        }
        Ok(())
    }

    /// The question, where the rules grant one.
    fn paper(self) -> Result<Paper, Malformed> {
        let (n, t) = self.shape.ok_or(Malformed)?;
        let asked = match self.question.ok_or(Malformed)? {
            0 => Asked::Covariance,
            1 => Asked::WeightedMean,
            2 => Asked::JamesStein,
            3 => Asked::BayesStein,
            _ => return Err(Malformed),
        };
        let decays = self.half_life.is_some() as usize + self.factor.is_some() as usize;
        let estimates = decays
            + self.semi as usize
            + self.threshold.is_some() as usize
            + !self.given.is_empty() as usize;
        let shrinkages = self.fixed.is_some() as usize + self.target.is_some() as usize;
        let rules = n <= FILE_ASSETS
            && t <= FILE_PERIODS
            && self.returns.len() == t * n
            && (self.given.is_empty() || self.given.len() == n * n)
            && estimates <= 1
            && shrinkages <= 1;
        let adjusts = self.regularization.is_some() || shrinkages > 0;
        let fits = match asked {
            Asked::Covariance => self.limit.is_none() || !self.given.is_empty(),
            Asked::WeightedMean => decays == 1 && !adjusts && self.limit.is_none(),
            Asked::JamesStein | Asked::BayesStein => !adjusts && estimates == 0,
        };
        if !rules || !fits {
            return Err(Malformed);
        }
        Ok(Paper {
            question: self.question(n, t, asked),
            returns: self.returns,
            given: self.given,
        })
    }

    /// The rules leave at most one estimate and one shrinkage.
    fn question(&self, assets: usize, periods: usize, asked: Asked) -> Question {
        use question::{Estimate, Shrinkage};
        let given = (!self.given.is_empty()).then_some(Estimate::Given);
        let semi = self.semi.then_some(Estimate::Semi);
        let estimate = given
            .or(semi)
            .or(self.half_life.map(Estimate::HalfLife))
            .or(self.threshold.map(Estimate::SemiBelow))
            .or(self.factor.map(Estimate::Factor));
        let fixed = self.fixed.map(Shrinkage::Fixed);
        let shrinkage = fixed.or(self.target.map(Shrinkage::LedoitWolf));
        Question {
            assets,
            periods,
            estimate: estimate.unwrap_or(Estimate::Sample),
            shrinkage: shrinkage.unwrap_or(Shrinkage::Unshrunk),
            regularization: self.regularization,
            limit: self.limit.map(usize::from),
            asked,
        }
    }
}
