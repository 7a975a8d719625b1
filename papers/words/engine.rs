// The engine's writer and reader of question files, over its C interface. A slice crosses as a
// pointer and then a length; all unsafe code of the program stands here.

use crate::record::{Estimate, Question, Record, Shrinkage, Target};

unsafe extern "C" {
    fn engine_write_question(
        assets: usize,
        periods: usize,
        returns: *const u64,
        returns_len: usize,
        estimate: u32,
        estimate_bits: u64,
        shrinkage: u32,
        shrinkage_bits: u64,
        regularization: u32,
        regularization_bits: u64,
        given: *const u64,
        given_len: usize,
        has_limit: u32,
        limit: usize,
        question: u32,
        out: *mut u8,
        out_len: usize,
        numbers: *mut [f64; 2],
        wholes: *mut [usize; 2],
    ) -> u32;
    fn engine_read_question(
        file: *const u8,
        file_len: usize,
        returns: *mut u64,
        returns_len: usize,
        given: *mut u64,
        given_len: usize,
        bits: *mut [u64; 3],
        wholes: *mut [usize; 8],
    ) -> u32;
}

/// What the writer refuses a record with that breaks a rule of the format.
pub const BREAKS_A_RULE: u32 = 17;

/// What the reader refuses a file with that is no question.
pub const NO_QUESTION: u32 = 15;

/// No file has more bytes, no return matrix and no given matrix more numbers.
const LONGEST: usize = 9849;
const RETURNS: usize = 1024;
const GIVEN: usize = 64;

/// The question file of a record, or the number of the refusal.
pub fn write(record: &Record) -> Result<Vec<u8>, u32> {
    let (estimate, estimate_bits, given) = estimate_number(&record.estimate);
    let (shrinkage, shrinkage_bits) = shrinkage_number(&record.shrinkage);
    let mut out = vec![0; LONGEST];
    let (mut numbers, mut wholes) = ([0.0; 2], [0; 2]);
    let refusal = unsafe {
        engine_write_question(
            record.assets,
            record.periods,
            record.returns.as_ptr(),
            record.returns.len(),
            estimate,
            estimate_bits,
            shrinkage,
            shrinkage_bits,
            record.regularization.is_some().into(),
            record.regularization.unwrap_or(0),
            given.as_ptr(),
            given.len(),
            record.limit.is_some().into(),
            record.limit.unwrap_or(0),
            question_number(record.question),
            out.as_mut_ptr(),
            out.len(),
            &mut numbers,
            &mut wholes,
        )
    };
    out.truncate(wholes[0]);
    accepted(refusal).map(|()| out)
}

/// The record of a question file, or the number of the refusal.
pub fn read(file: &[u8]) -> Result<Record, u32> {
    let (mut returns, mut given) = (vec![0; RETURNS], vec![0; GIVEN]);
    let (mut bits, mut wholes) = ([0; 3], [0; 8]);
    let refusal = unsafe {
        engine_read_question(
            file.as_ptr(),
            file.len(),
            returns.as_mut_ptr(),
            returns.len(),
            given.as_mut_ptr(),
            given.len(),
            &mut bits,
            &mut wholes,
        )
    };
    accepted(refusal)?;
    let [assets, periods, estimate, shrinkage, regularization, has_limit, limit, question] = wholes;
    returns.truncate(periods * assets);
    given.truncate(assets * assets);
    Ok(Record {
        assets,
        periods,
        returns,
        estimate: estimate_of(estimate, bits[0], given),
        shrinkage: shrinkage_of(shrinkage, bits[1]),
        regularization: (regularization == 1).then_some(bits[2]),
        limit: (has_limit == 1).then_some(limit),
        question: question_of(question),
    })
}

fn accepted(refusal: u32) -> Result<(), u32> {
    match refusal {
        0 => Ok(()),
        number => Err(number),
    }
}

/// The engine's number of an estimate, the bits that come with it, and its matrix.
fn estimate_number(estimate: &Estimate) -> (u32, u64, &[u64]) {
    match estimate {
        Estimate::Sample => (0, 0, &[]),
        Estimate::Given(given) => (1, 0, given),
        Estimate::HalfLife(bits) => (2, *bits, &[]),
        Estimate::Semi => (3, 0, &[]),
        Estimate::Threshold(bits) => (4, *bits, &[]),
        Estimate::DecayFactor(bits) => (5, *bits, &[]),
    }
}

fn estimate_of(number: usize, bits: u64, given: Vec<u64>) -> Estimate {
    match number {
        0 => Estimate::Sample,
        1 => Estimate::Given(given),
        2 => Estimate::HalfLife(bits),
        3 => Estimate::Semi,
        4 => Estimate::Threshold(bits),
        5 => Estimate::DecayFactor(bits),
        _ => unreachable!("the engine has the estimates 0 to 5"),
    }
}

fn shrinkage_number(shrinkage: &Shrinkage) -> (u32, u64) {
    match shrinkage {
        Shrinkage::Unshrunk => (0, 0),
        Shrinkage::Fixed(bits) => (1, *bits),
        Shrinkage::LedoitWolf(Target::Variance) => (2, 0),
        Shrinkage::LedoitWolf(Target::Correlation) => (3, 0),
    }
}

fn shrinkage_of(number: usize, bits: u64) -> Shrinkage {
    match number {
        0 => Shrinkage::Unshrunk,
        1 => Shrinkage::Fixed(bits),
        2 => Shrinkage::LedoitWolf(Target::Variance),
        3 => Shrinkage::LedoitWolf(Target::Correlation),
        _ => unreachable!("the engine has the shrinkages 0 to 3"),
    }
}

fn question_number(question: Question) -> u32 {
    match question {
        Question::Covariance => 0,
        Question::WeightedMean => 1,
        Question::JamesStein => 2,
        Question::BayesStein => 3,
    }
}

fn question_of(number: usize) -> Question {
    match number {
        0 => Question::Covariance,
        1 => Question::WeightedMean,
        2 => Question::JamesStein,
        3 => Question::BayesStein,
        _ => unreachable!("the engine has the questions 0 to 3"),
    }
}
