// The engine's writer and reader as this program calls them: files written out in full, and the
// rules of this program against the engine's.

use crate::engine::{read, write, BREAKS_A_RULE, NO_QUESTION};
use crate::parser::parse;
use crate::record::{Estimate, Question, Record, Shrinkage, Target};
use crate::say::say;

/// One asset, the returns 1 and 3, given 2.
fn given(limit: Option<usize>) -> Record {
    Record {
        assets: 1,
        periods: 2,
        returns: vec![0x3FF0000000000000, 0x4008000000000000],
        estimate: Estimate::Given(vec![0x4000000000000000]),
        shrinkage: Shrinkage::Unshrunk,
        regularization: None,
        limit,
        question: Question::Covariance,
    }
}

#[test]
fn a_limit_of_100_is_no_missing_limit() {
    let file =
        b"\x01\x01\0\x02\0\x02\0\0\0\0\0\0\xF0\x3F\x02\0\0\0\0\0\0\x08\x40\x09\0\0\0\0\0\0\0\x40";
    for (limit, end) in [(None, &b"\x0B\0"[..]), (Some(100), b"\x0A\x64\x0B\0")] {
        let file = [file, end].concat();
        assert_eq!(write(&given(limit)), Ok(file.clone()));
        assert_eq!(read(&file), Ok(given(limit)));
    }
}

#[test]
fn no_question() {
    for file in [&b""[..], b"\x01", b"\x01\0\0\0\0", b"\x01\0\0\0\0\x0B\x04"] {
        assert_eq!(read(file), Err(NO_QUESTION));
    }
}

/// Every estimate, shrinkage, regularization, limit and question beside every other, at this size.
fn records(assets: usize, periods: usize) -> Vec<Record> {
    let mut all = Vec::new();
    let estimates = [
        Estimate::Sample,
        Estimate::Given(vec![0x401C000000000000; assets * assets]),
        Estimate::HalfLife(1),
        Estimate::Semi,
        Estimate::Threshold(2),
        Estimate::DecayFactor(3),
    ];
    let shrinkages = [
        Shrinkage::Unshrunk,
        Shrinkage::Fixed(4),
        Shrinkage::LedoitWolf(Target::Variance),
        Shrinkage::LedoitWolf(Target::Correlation),
    ];
    let questions = [
        Question::Covariance,
        Question::WeightedMean,
        Question::JamesStein,
        Question::BayesStein,
    ];
    for at in 0..6 * 4 * 2 * 5 * 4 {
        all.push(Record {
            assets,
            periods,
            returns: vec![0x4018000000000000; periods * assets],
            estimate: estimates[at % 6].clone(),
            shrinkage: shrinkages[at / 6 % 4].clone(),
            regularization: [None, Some(5)][at / 24 % 2],
            limit: [None, Some(0), Some(100), Some(255), Some(256)][at / 48 % 5],
            question: questions[at / 240],
        });
    }
    all
}

/// A paper in words is refused exactly where the engine refuses its record, and else read to it.
#[test]
fn the_rules_are_the_engines() {
    let (mut kept, mut refused) = (0, 0);
    for assets in [0, 1, 2, 8, 9] {
        for periods in [0, 1, 3, 128, 129] {
            for record in records(assets, periods) {
                let text = say(&record);
                match write(&record) {
                    Ok(file) => {
                        assert_eq!(read(&file).as_ref(), Ok(&record), "{text}");
                        assert_eq!(parse(&text), Ok(record), "{text}");
                        kept += 1;
                    }
                    Err(number) => {
                        assert_eq!(number, BREAKS_A_RULE, "{text}");
                        assert!(parse(&text).is_err(), "{text}");
                        refused += 1;
                    }
                }
            }
        }
    }
    // Of the 960 at a size that a file takes, 82 are questions, and 50 where there are no assets.
    assert_eq!((kept, refused), (12 * 82 + 4 * 50, 25 * 960 - 1184));
}
