// Document 02, Paper 5, at its corners: question records with the length of the output, and the file
// that is written of each in document 01's notation, or the refusal.

use reference::covariance::Target;
use reference::flat::Flat;
use reference::flat_question::{Draft, FlatQuestion};
use reference::question::{Asked, Estimate, Question, Shrinkage};

const ONE: u64 = 0x3FF0000000000000;
const THREE: u64 = 0x4008000000000000;
const HALF: u64 = 0x3FE0000000000000;
const TWO: u64 = 0x4000000000000000;
const MINUS_ZERO: u64 = 0x8000000000000000;
const NAN: u64 = 0x7FF8000000000000;
const SIGNALLING: u64 = 0x7FF0000000000001;

/// The returns 1 and 3 of one asset, and what a file of them begins with.
const RETURNS: &[u64] = &[ONE, THREE];
const OPENING: &str = "01 0100 0200 02 000000000000F03F 02 0000000000000840";

/// The given entry 2.
const ENTRY: &[u64] = &[TWO];
const GIVEN_2: &str = "09 0000000000000040";

/// More than any file here.
const ENOUGH: usize = 100;

pub const SAMPLE: Question = Question {
    assets: 1,
    periods: 2,
    estimate: Estimate::Sample,
    shrinkage: Shrinkage::Unshrunk,
    regularization: None,
    limit: None,
    asked: Asked::Covariance,
};
const GIVEN: Question = with(Asked::Covariance, Estimate::Given);
const MEAN: Question = with(Asked::WeightedMean, Estimate::HalfLife(0));
const JAMES: Question = with(Asked::JamesStein, Estimate::Sample);
const BAYES: Question = with(Asked::BayesStein, Estimate::Sample);
const NOTHING: Question = shaped(0, 5);

const FIXED: Shrinkage = Shrinkage::Fixed(HALF);
const TO_VARIANCE: Shrinkage = Shrinkage::LedoitWolf(Target::ConstantVariance);
const TO_CORRELATION: Shrinkage = Shrinkage::LedoitWolf(Target::ConstantCorrelation);

pub const fn with(asked: Asked, estimate: Estimate) -> Question {
    Question {
        asked,
        estimate,
        ..SAMPLE
    }
}

const fn shaped(assets: usize, periods: usize) -> Question {
    Question {
        assets,
        periods,
        ..SAMPLE
    }
}

pub const fn limited(question: Question, limit: usize) -> Question {
    Question {
        limit: Some(limit),
        ..question
    }
}

pub const fn shrunk(question: Question, shrinkage: Shrinkage) -> Question {
    Question {
        shrinkage,
        ..question
    }
}

pub const fn ridged(question: Question, bits: u64) -> Question {
    Question {
        regularization: Some(bits),
        ..question
    }
}

/// What the record is about, the record, its returns, its given entries, and its file in pieces.
type Written = (
    &'static str,
    Question,
    &'static [u64],
    &'static [u64],
    &'static [&'static str],
);

#[rustfmt::skip]
const WRITTEN: [Written; 23] = [
    ("given 2, no limit", GIVEN, RETURNS, ENTRY, &[OPENING, GIVEN_2, "0B 00"]),
    ("given 2, limit 100", limited(GIVEN, 100), RETURNS, ENTRY, &[OPENING, GIVEN_2, "0A 64 0B 00"]),
    ("given 2, limit 0", limited(GIVEN, 0), RETURNS, ENTRY, &[OPENING, GIVEN_2, "0A 00 0B 00"]),
    ("given 2, limit 101", limited(GIVEN, 101), RETURNS, ENTRY, &[OPENING, GIVEN_2, "0A 65 0B 00"]),
    ("given 2, limit 255", limited(GIVEN, 255), RETURNS, ENTRY, &[OPENING, GIVEN_2, "0A FF 0B 00"]),
    ("James-Stein", JAMES, RETURNS, &[], &[OPENING, "0B 02"]),
    ("James-Stein, limit 100", limited(JAMES, 100), RETURNS, &[], &[OPENING, "0A 64 0B 02"]),
    ("Bayes-Stein, limit 255", limited(BAYES, 255), RETURNS, &[], &[OPENING, "0A FF 0B 03"]),
    ("0 assets, 5 periods", NOTHING, &[], &[], &["01 0000 0500 0B 00"]),
    ("0 assets, 0 periods", shaped(0, 0), &[], &[], &["01 0000 0000 0B 00"]),
    ("8 assets, 0 periods", shaped(8, 0), &[], &[], &["01 0800 0000 0B 00"]),
    ("0 assets, 128 periods", shaped(0, 128), &[], &[], &["01 0000 8000 0B 00"]),
    // All 64 bits are kept.
    ("signalling NaN", shaped(1, 1), &[SIGNALLING], &[], &["01 0100 0100 02 010000000000F07F 0B 00"]),
    // Values are not judged.
    ("regularization NaN", ridged(SAMPLE, NAN), RETURNS, &[], &[OPENING, "03 000000000000F87F 0B 00"]),
    ("half-life 0", MEAN, RETURNS, &[], &[OPENING, "06 0000000000000000 0B 01"]),
    ("factor 2", with(Asked::WeightedMean, Estimate::Factor(TWO)), RETURNS, &[],
        &[OPENING, "0C 0000000000000040 0B 01"]),
    ("semi", with(Asked::Covariance, Estimate::Semi), RETURNS, &[], &[OPENING, "07 0B 00"]),
    ("threshold -0", with(Asked::Covariance, Estimate::SemiBelow(MINUS_ZERO)), RETURNS, &[],
        &[OPENING, "08 0000000000000080 0B 00"]),
    ("Ledoit-Wolf", shrunk(SAMPLE, TO_VARIANCE), RETURNS, &[], &[OPENING, "05 00 0B 00"]),
    ("Ledoit-Wolf beside given 2", shrunk(GIVEN, TO_VARIANCE), RETURNS, ENTRY,
        &[OPENING, "05 00", GIVEN_2, "0B 00"]),
    ("Ledoit-Wolf beside factor 0.5",
        shrunk(with(Asked::Covariance, Estimate::Factor(HALF)), TO_CORRELATION), RETURNS, &[],
        &[OPENING, "05 01 0C 000000000000E03F 0B 00"]),
    ("ridge, half-life 0.5", ridged(with(Asked::Covariance, Estimate::HalfLife(HALF)), ONE), RETURNS,
        &[], &[OPENING, "03 000000000000F03F 06 000000000000E03F 0B 00"]),
    ("ridge, shrinkage, given 2, limit 3", limited(shrunk(ridged(GIVEN, ONE), FIXED), 3), RETURNS,
        ENTRY, &[OPENING, "03 000000000000F03F 04 000000000000E03F", GIVEN_2, "0A 03 0B 00"]),
];

/// What the record is about, the record, its returns and its given entries.
type Refused = (&'static str, Question, &'static [u64], &'static [u64]);

#[rustfmt::skip]
const REFUSED: [Refused; 42] = [
    ("9 assets", shaped(9, 2), &[ONE; 18], &[]),
    ("9 assets, 0 periods", shaped(9, 0), &[], &[]),
    ("129 periods", shaped(1, 129), &[ONE; 129], &[]),
    ("0 assets, 129 periods", shaped(0, 129), &[], &[]),
    ("65,536 assets", shaped(65_536, 5), &[], &[]),
    ("65,537 assets", shaped(65_537, 2), RETURNS, &[]),
    ("65,541 periods", shaped(0, 65_541), &[], &[]),
    ("the most assets and periods", shaped(usize::MAX, usize::MAX), &[ONE], &[]),
    ("2^32 assets and periods", shaped(1 << 32, 1 << 32), &[], &[]),
    ("2^32 assets, given", Question { assets: 1 << 32, periods: 0, ..GIVEN }, &[], &[]),
    ("no return", SAMPLE, &[], &[]),
    ("a return fewer", SAMPLE, &[ONE], &[]),
    ("a return more", SAMPLE, &[ONE; 3], &[]),
    ("a return of 0 assets", NOTHING, &[ONE], &[]),
    ("given side 0", GIVEN, RETURNS, &[]),
    ("given side 2", GIVEN, RETURNS, &[ONE; 4]),
    ("a given entry more", GIVEN, RETURNS, &[ONE; 2]),
    ("given of 0 assets", Question { estimate: Estimate::Given, ..NOTHING }, &[], &[]),
    ("given of 0 assets, limit 100",
        limited(Question { estimate: Estimate::Given, ..NOTHING }, 100), &[], &[]),
    ("given entry beside the sample", SAMPLE, RETURNS, ENTRY),
    ("given entry beside a half-life", MEAN, RETURNS, ENTRY),
    ("limit 256", limited(GIVEN, 256), RETURNS, ENTRY),
    ("James-Stein, limit 356", limited(JAMES, 356), RETURNS, &[]),
    ("sample, limit 100", limited(SAMPLE, 100), RETURNS, &[]),
    ("semi, limit 3", limited(with(Asked::Covariance, Estimate::Semi), 3), RETURNS, &[]),
    ("mean, limit 100", limited(MEAN, 100), RETURNS, &[]),
    ("mean, ridge", ridged(MEAN, 0), RETURNS, &[]),
    ("mean, shrinkage", shrunk(MEAN, FIXED), RETURNS, &[]),
    ("mean, Ledoit-Wolf", shrunk(MEAN, TO_VARIANCE), RETURNS, &[]),
    ("mean of the sample", with(Asked::WeightedMean, Estimate::Sample), RETURNS, &[]),
    ("mean, semi", with(Asked::WeightedMean, Estimate::Semi), RETURNS, &[]),
    ("mean, threshold 0", with(Asked::WeightedMean, Estimate::SemiBelow(0)), RETURNS, &[]),
    ("mean, given 2", with(Asked::WeightedMean, Estimate::Given), RETURNS, ENTRY),
    ("James-Stein, ridge", ridged(JAMES, 0), RETURNS, &[]),
    ("James-Stein, shrinkage", shrunk(JAMES, FIXED), RETURNS, &[]),
    ("Bayes-Stein, Ledoit-Wolf", shrunk(BAYES, TO_CORRELATION), RETURNS, &[]),
    ("Bayes-Stein, ridge", ridged(BAYES, NAN), RETURNS, &[]),
    ("James-Stein, semi", with(Asked::JamesStein, Estimate::Semi), RETURNS, &[]),
    ("Bayes-Stein, threshold 0", with(Asked::BayesStein, Estimate::SemiBelow(0)), RETURNS, &[]),
    ("James-Stein, half-life 1", with(Asked::JamesStein, Estimate::HalfLife(ONE)), RETURNS, &[]),
    ("Bayes-Stein, factor 0.5", with(Asked::BayesStein, Estimate::Factor(HALF)), RETURNS, &[]),
    ("James-Stein, given 2", with(Asked::JamesStein, Estimate::Given), RETURNS, ENTRY),
];

pub struct Example {
    pub about: &'static str,
    pub draft: Draft,
    /// What is told of the answer.
    pub should_be: String,
}

/// What an output holds before.
pub const BEFORE: u8 = 0xEE;

/// Each file that is written fits exactly, then lacks a byte; each record that is refused has an output
/// that is long enough, then an empty one.
pub fn all() -> Vec<Example> {
    let mut examples = Vec::new();
    for (about, question, returns, given, pieces) in WRITTEN {
        let record = (about, question, returns, given);
        let digits = pieces.concat().replace(' ', "");
        let length = digits.len() / 2;
        examples.push(example(record, length, &digits));
        examples.push(example(record, length - 1, "refused 18"));
    }
    for record in REFUSED {
        examples.push(example(record, ENOUGH, "refused 17"));
        examples.push(example(record, 0, "refused 17"));
    }
    examples
}

fn example((about, question, returns, given): Refused, output: usize, should_be: &str) -> Example {
    Example {
        about,
        draft: Draft {
            record: FlatQuestion::of(&question),
            returns: returns.to_vec(),
            given: given.to_vec(),
            out: vec![BEFORE; output],
        },
        should_be: should_be.to_string(),
    }
}

/// The file's digits, or the refusal.
pub fn told(flat: &Flat, out: &[u8]) -> String {
    match (flat.number, out.get(..flat.wholes[0])) {
        (0, Some(file)) => file.iter().map(|byte| format!("{byte:02X}")).collect(),
        (0, None) => "more bytes than the output has".to_string(),
        (number, _) => format!("refused {number}"),
    }
}
