// Papers that are not as they should be, each with the line and the words of what is said of it.

use crate::parser::parse;
use crate::rules::Fault;

/// A paper, the number of the line, and what is said.
type Faulty = (&'static str, usize, &'static str);

fn hold(papers: &[Faulty]) {
    for &(text, line, why) in papers {
        let why = why.to_string();
        assert_eq!(parse(text), Err(Fault { line, why }), "{text}");
    }
}

const WORDS: &[Faulty] = &[
    (
        "assets 2\nperiod 2",
        2,
        "expected assets, periods, returns, regularization, shrink, ledoit-wolf, half-life, decay-factor, \
         semi, threshold, given, limit or question, found 'period'",
    ),
    ("\n# two\nassets two", 3, "expected a whole number, found 'two'"),
    ("assets -2", 1, "expected a whole number, found '-2'"),
    ("assets", 1, "expected a whole number after 'assets', found the end of the line"),
    ("assets 2 periods 2", 1, "expected the end of the line, found 'periods'"),
    ("half-life # 3", 1, "expected a number after 'half-life', found the end of the line"),
    ("shrink 1/2", 1, "expected a number, found '1/2'"),
    (
        "threshold nan",
        1,
        "expected a number, found 'nan': give the bits of a NaN, as in 0x7FF8000000000000",
    ),
    ("semi 0.01", 1, "expected the end of the line, found '0.01'"),
    ("ledoit-wolf", 1, "expected variance or correlation after 'ledoit-wolf', found the end of the line"),
    ("ledoit-wolf mean", 1, "expected variance or correlation, found 'mean'"),
    (
        "question mean",
        1,
        "expected covariance, weighted-mean, james-stein or bayes-stein, found 'mean'",
    ),
    ("limit 5\n\nlimit 5", 3, "'limit' is too much: it stands on line 1 already"),
];

const SIZES: &[Faulty] = &[
    ("assets 9", 1, "expected at most 8 assets, found 9: a question file takes no more"),
    ("\nperiods 129", 2, "expected at most 128 periods, found 129: a question file takes no more"),
    (
        "limit 99999999999999999999",
        1,
        "expected a limit of at most 255, found 99999999999999999999: a question file takes no more",
    ),
    ("assets 1\nreturns", 2, "expected 'periods' before 'returns'"),
    ("periods 1\ngiven", 2, "expected 'assets' before 'given'"),
];

const ROWS: &[Faulty] = &[
    (
        "assets 3\nperiods 2\nreturns\n1 2 3\n4 5",
        5,
        "expected 3 numbers, found 2",
    ),
    (
        "assets 1\nperiods 2\nreturns\n1 2\n4",
        4,
        "expected 1 number, found 2",
    ),
    (
        "assets 2\nperiods 2\nreturns\n1, 2\n3, 6",
        4,
        "expected a number, found '1,'",
    ),
    (
        "assets 2\nperiods 2\nreturns 1 2\n3 6",
        3,
        "expected the end of the line, found '1'",
    ),
    (
        "assets 2\nperiods 3\nreturns\n1 2\n\nquestion covariance",
        6,
        "expected 3 rows below 'returns', found 1, then 'question'",
    ),
    (
        "assets 2\nperiods 3\ngiven\n1 2\n# no more\n",
        5,
        "expected 2 rows below 'given', found 1, then the end of the paper",
    ),
    (
        "assets 2\nperiods 1\nreturns\n1 2\n3 6",
        5,
        "expected 1 row below 'returns', found more",
    ),
    (
        "assets 0\nperiods 1\nreturns\n1",
        4,
        "expected 0 rows below 'returns', found more",
    ),
];

const MISSING: &[Faulty] = &[
    ("", 1, "expected 'assets', found the end of the paper"),
    (
        "assets 0\n# and no more\n\n",
        3,
        "expected 'periods', found the end of the paper",
    ),
    (
        "assets 1\nperiods 2\nquestion covariance",
        3,
        "expected 'returns', found the end of the paper",
    ),
    (
        "assets 0\nperiods 2",
        2,
        "expected 'question', found the end of the paper",
    ),
    (
        "assets 0\nperiods 0\nquestion weighted-mean\n\n",
        3,
        "'question weighted-mean' needs 'half-life' or 'decay-factor'",
    ),
];

const TOO_MUCH: &[Faulty] = &[
    (
        "semi\nthreshold 0",
        2,
        "'threshold' is too much: a paper has at most one estimate, and 'semi' on line 1 is one",
    ),
    (
        "ledoit-wolf variance\nsemi\nshrink 0",
        3,
        "'shrink' is too much: a paper has at most one shrinkage, and 'ledoit-wolf' on line 1 is one",
    ),
    (
        "assets 0\nperiods 0\ngiven\nquestion covariance",
        3,
        "'given' is too much: a given matrix has at least 1 asset",
    ),
    (
        "assets 0\nperiods 0\nlimit 9\nquestion covariance",
        3,
        "'limit' is too much: 'question covariance' takes 'limit' only beside 'given'",
    ),
    (
        "assets 0\nperiods 0\nquestion weighted-mean\nhalf-life 3\nlimit 9",
        5,
        "'limit' is too much: 'question weighted-mean' takes 'half-life' or 'decay-factor' and no other setting",
    ),
    (
        "semi\nquestion weighted-mean\nassets 0\nperiods 0",
        1,
        "'semi' is too much: 'question weighted-mean' takes 'half-life' or 'decay-factor' and no other setting",
    ),
    (
        "question james-stein\nassets 0\nperiods 0\nlimit 9\nshrink 0",
        5,
        "'shrink' is too much: 'question james-stein' takes 'limit' and no other setting",
    ),
    (
        "assets 0\nperiods 0\nhalf-life 3\nquestion bayes-stein",
        3,
        "'half-life' is too much: 'question bayes-stein' takes 'limit' and no other setting",
    ),
];

#[test]
fn words() {
    hold(WORDS);
}

#[test]
fn sizes() {
    hold(SIZES);
}

#[test]
fn rows() {
    hold(ROWS);
}

#[test]
fn what_is_missing() {
    hold(MISSING);
}

#[test]
fn what_is_too_much() {
    hold(TOO_MUCH);
}
