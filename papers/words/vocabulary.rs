// The words of a paper, and the names of the questions and of the Ledoit-Wolf targets.

use crate::record::{Question, Target};

#[derive(Clone, Copy, Debug, PartialEq)]
pub enum Word {
    Assets,
    Periods,
    Returns,
    Regularization,
    Shrink,
    LedoitWolf,
    HalfLife,
    DecayFactor,
    Semi,
    Threshold,
    Given,
    Limit,
    Question,
}

/// Each value with its name.
pub type Names<T> = [(T, &'static str)];

pub const WORDS: &Names<Word> = &[
    (Word::Assets, "assets"),
    (Word::Periods, "periods"),
    (Word::Returns, "returns"),
    (Word::Regularization, "regularization"),
    (Word::Shrink, "shrink"),
    (Word::LedoitWolf, "ledoit-wolf"),
    (Word::HalfLife, "half-life"),
    (Word::DecayFactor, "decay-factor"),
    (Word::Semi, "semi"),
    (Word::Threshold, "threshold"),
    (Word::Given, "given"),
    (Word::Limit, "limit"),
    (Word::Question, "question"),
];

pub const TARGETS: &Names<Target> = &[
    (Target::Variance, "variance"),
    (Target::Correlation, "correlation"),
];

pub const QUESTIONS: &Names<Question> = &[
    (Question::Covariance, "covariance"),
    (Question::WeightedMean, "weighted-mean"),
    (Question::JamesStein, "james-stein"),
    (Question::BayesStein, "bayes-stein"),
];

/// The value of that name.
pub fn named<T: Copy>(names: &Names<T>, name: &str) -> Option<T> {
    let found = names.iter().find(|each| each.1 == name);
    found.map(|each| each.0)
}

pub fn name<T: PartialEq>(names: &Names<T>, value: T) -> &'static str {
    let found = names.iter().find(|each| each.0 == value);
    found.expect("every value has a name").1
}

/// All names, with 'or' before the last.
pub fn choice<T>(names: &Names<T>) -> String {
    let all: Vec<&str> = names.iter().map(|each| each.1).collect();
    let (last, others) = all.split_last().expect("names");
    format!("{} or {last}", others.join(", "))
}
