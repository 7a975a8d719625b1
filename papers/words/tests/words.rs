// Papers in words: the records that they are read to, and the words for a record.

use crate::parser::parse;
use crate::record::{Estimate, Question, Record, Shrinkage, Target};
use crate::say::say;

const ONE: u64 = 0x3FF0000000000000;
const TWO: u64 = 0x4000000000000000;
const THREE: u64 = 0x4008000000000000;
const HALF: u64 = 0x3FE0000000000000;

/// 2 assets, 1 period, returns 1 and 2.
fn plain(question: Question) -> Record {
    Record {
        assets: 2,
        periods: 1,
        returns: vec![ONE, TWO],
        estimate: Estimate::Sample,
        shrinkage: Shrinkage::Unshrunk,
        regularization: None,
        limit: None,
        question,
    }
}

/// Any order, spaces and tabs, comments, empty lines, and lines that end as on Windows.
#[test]
fn any_order_and_layout() {
    let text = "# A paper.\r\n\r\nquestion\tcovariance#of all\n  limit 100\nperiods 1 # one\n\
                assets  2\n\ngiven\n# rows\n 1\t0.5 \n\n0.5 1#\nregularization 0x3\nreturns\n1 2";
    let record = Record {
        estimate: Estimate::Given(vec![ONE, HALF, HALF, ONE]),
        regularization: Some(3),
        limit: Some(100),
        ..plain(Question::Covariance)
    };
    assert_eq!(parse(text), Ok(record));
}

/// The words of a record, behind those of the returns.
fn there_and_back(words: &str, record: Record) {
    let text = format!("assets 2\nperiods 1\nreturns\n  1  2\n{words}\n");
    assert_eq!(say(&record), text);
    assert_eq!(parse(&text), Ok(record));
}

#[test]
fn questions() {
    there_and_back("question covariance", plain(Question::Covariance));
    there_and_back("question james-stein", plain(Question::JamesStein));
    there_and_back("question bayes-stein", plain(Question::BayesStein));
    let mean = Record {
        estimate: Estimate::HalfLife(THREE),
        ..plain(Question::WeightedMean)
    };
    there_and_back("half-life 3\nquestion weighted-mean", mean);
}

#[test]
fn estimates() {
    let estimates = [
        ("half-life 3", Estimate::HalfLife(THREE)),
        ("decay-factor 0.5", Estimate::DecayFactor(HALF)),
        ("semi", Estimate::Semi),
        ("threshold 2", Estimate::Threshold(TWO)),
    ];
    for (words, estimate) in estimates {
        let record = Record {
            estimate,
            ..plain(Question::Covariance)
        };
        there_and_back(&format!("{words}\nquestion covariance"), record);
    }
}

#[test]
fn shrinkages() {
    let (variance, correlation) = (Target::Variance, Target::Correlation);
    let shrinkages = [
        ("shrink 0.5", Shrinkage::Fixed(HALF)),
        ("ledoit-wolf variance", Shrinkage::LedoitWolf(variance)),
        (
            "ledoit-wolf correlation",
            Shrinkage::LedoitWolf(correlation),
        ),
    ];
    for (words, shrinkage) in shrinkages {
        let record = Record {
            shrinkage,
            ..plain(Question::Covariance)
        };
        there_and_back(&format!("{words}\nquestion covariance"), record);
    }
}

#[test]
fn limits() {
    for limit in [0, 100, 255] {
        let record = Record {
            limit: Some(limit),
            ..plain(Question::BayesStein)
        };
        there_and_back(&format!("limit {limit}\nquestion bayes-stein"), record);
    }
}

#[test]
fn all_parts_in_the_order_of_a_file() {
    let record = Record {
        periods: 2,
        returns: vec![ONE, 0x7FF8000000000001, 0xC059000000000000, TWO],
        estimate: Estimate::Given(vec![ONE, HALF, HALF, ONE]),
        shrinkage: Shrinkage::Fixed(0),
        regularization: Some(0x8000000000000000),
        limit: Some(20),
        ..plain(Question::Covariance)
    };
    let text = "assets 2\nperiods 2\nreturns\n     1  0x7FF8000000000001\n  -100                   2\n\
                regularization -0\nshrink 0\ngiven\n    1  0.5\n  0.5    1\nlimit 20\nquestion covariance\n";
    assert_eq!(say(&record), text);
    assert_eq!(parse(text), Ok(record));
}

/// Without assets or periods there are no rows; 'returns' may stand alone.
#[test]
fn no_rows() {
    for (assets, periods) in [(0, 5), (2, 0), (0, 0)] {
        let record = Record {
            assets,
            periods,
            returns: vec![],
            ..plain(Question::Covariance)
        };
        let sizes = format!("assets {assets}\nperiods {periods}\n");
        let text = format!("{sizes}question covariance\n");
        assert_eq!(say(&record), text);
        assert_eq!(parse(&text), Ok(record.clone()));
        let text = format!("{sizes}returns\nquestion covariance\n");
        assert_eq!(parse(&text), Ok(record));
    }
}
