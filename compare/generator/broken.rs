// Document 02, Paper 5: question records that break one rule of the format each, where it begins to
// apply and far beyond, and keep all others; then some that break several.

use crate::questions::{
    draw_authored, draw_decay, draw_fitting, draw_limit, draw_number, draw_of_shape, draw_semi,
    draw_shrinkage, draw_with, ASKED,
};
use crate::random::Random;
use reference::exam::{FILE_ASSETS, FILE_PERIODS};
use reference::question::{Asked, Estimate, Paper};

/// Draws a record that breaks the rule.
type Draw = fn(&Random) -> Paper;

/// Each rule by the name of what breaks it.
pub const BREAKS: [(&str, Draw); 17] = [
    ("more than 8 assets", too_many_assets),
    ("more than 128 periods", too_many_periods),
    ("counts whose product wraps", wrapping_counts),
    ("another count of returns", other_returns),
    ("another count of given entries", other_entries),
    ("given entries beside another estimate", unasked_entries),
    ("a given matrix of 0 assets", |random| {
        let t = random.pick(&[0, 1, 5, random.below(FILE_PERIODS + 1)]);
        draw_of_shape(random, (0, t), Asked::Covariance, Estimate::Given)
    }),
    ("a limit over 255", large_limit),
    ("covariance, limit without given matrix", |random| {
        let mut paper = draw_with(random, Asked::Covariance, draw_other(random));
        paper.question.limit = Some(draw_limit(random));
        paper
    }),
    ("weighted mean without decay", |random| {
        let others = [Estimate::Sample, Estimate::Given, draw_semi(random)];
        draw_with(random, Asked::WeightedMean, random.pick(&others))
    }),
    ("weighted mean, shrinkage", |random| {
        with_shrinkage(random, draw_weighted(random))
    }),
    ("weighted mean, regularization", |random| {
        with_regularization(random, draw_weighted(random))
    }),
    ("weighted mean, limit", |random| {
        let mut paper = draw_weighted(random);
        paper.question.limit = Some(draw_limit(random));
        paper
    }),
    ("Stein mean, another estimate", |random| {
        let others = [Estimate::Given, draw_semi(random), draw_decay(random)];
        draw_with(random, draw_stein(random), random.pick(&others))
    }),
    ("Stein mean, shrinkage", |random| {
        let paper = draw_with(random, draw_stein(random), Estimate::Sample);
        with_shrinkage(random, paper)
    }),
    ("Stein mean, regularization", |random| {
        let paper = draw_with(random, draw_stein(random), Estimate::Sample);
        with_regularization(random, paper)
    }),
    ("several rules", several),
];

// ---- counts

const HUGE: [usize; 9] = [
    1 << 8,
    1 << 16,
    (1 << 16) + 1,
    (1 << 16) + FILE_ASSETS,
    1 << 32,
    (1 << 32) + 1,
    1 << 63,
    usize::MAX - 1,
    usize::MAX,
];

/// Added to a count, they leave its low bits.
const HIGH_BITS: [usize; 5] = [1 << 8, 1 << 16, 1 << 32, 1 << 48, 1 << 63];

fn too_many_assets(random: &Random) -> Paper {
    let asked = random.pick(&ASKED);
    match random.below(4) {
        0 | 1 => {
            let n = FILE_ASSETS + random.pick(&[1, 1, 1, 2, 8, 16]);
            let t = random.pick(&[0, 1, 2, 5, FILE_PERIODS]);
            draw_of_shape(random, (n, t), asked, draw_fitting(random, asked))
        }
        2 => {
            // No periods: the returns are as many as the counts say.
            let mut paper = draw_of_shape(random, (0, 0), asked, draw_fitting(random, asked));
            paper.question.assets = random.pick(&HUGE);
            paper
        }
        _ => {
            let mut paper = draw_authored(random);
            paper.question.assets += random.pick(&HIGH_BITS);
            paper
        }
    }
}

fn too_many_periods(random: &Random) -> Paper {
    let asked = random.pick(&ASKED);
    match random.below(4) {
        0 | 1 => {
            let estimate = draw_fitting(random, asked);
            let n = random.pick(&[1, 2, 3, FILE_ASSETS]);
            let t = FILE_PERIODS + random.pick(&[1, 1, 1, 2, 127, 128]);
            draw_of_shape(random, (n, t), asked, estimate)
        }
        2 => {
            // No assets: the same.
            let estimate = match asked {
                Asked::Covariance => draw_other(random),
                _ => draw_fitting(random, asked),
            };
            let mut paper = draw_of_shape(random, (0, 0), asked, estimate);
            paper.question.periods = random.pick(&[FILE_PERIODS + 1, random.pick(&HUGE)]);
            paper
        }
        _ => {
            let mut paper = draw_authored(random);
            paper.question.periods += random.pick(&HIGH_BITS);
            paper
        }
    }
}

/// A product of counts is past the largest whole number, and by its low bits the length of the slice.
fn wrapping_counts(random: &Random) -> Paper {
    let asked = random.pick(&ASKED);
    let estimate = draw_fitting(random, asked);
    let of_shape = |n, t| draw_of_shape(random, (n, t), asked, estimate);
    let (mut paper, counts) = match random.below(5) {
        0 => {
            let (n, high) = random.pick(&[(2, 1 << 63), (4, 1 << 62), (8, 1 << 61)]);
            let t = random.below(FILE_PERIODS + 1);
            (of_shape(n, t), (n, t + high))
        }
        1 => {
            let (n, t) = (1 + random.below(FILE_ASSETS), 8 * random.below(3));
            (of_shape(n, t), (n + (1 << 61), t))
        }
        2 => (of_shape(0, 0), (1 << 32, 1 << 32)),
        3 => {
            // The count of the given entries.
            let estimate = Estimate::Given;
            let paper = draw_of_shape(random, (0, 0), Asked::Covariance, estimate);
            (paper, (1 << 32, 0))
        }
        _ => (of_shape(1, 1), (usize::MAX, usize::MAX)),
    };
    (paper.question.assets, paper.question.periods) = counts;
    paper
}

// ---- slices

fn other_returns(random: &Random) -> Paper {
    let mut paper = draw_authored(random);
    let row = paper.question.assets;
    other_length(random, &mut paper.returns, row);
    paper
}

fn other_entries(random: &Random) -> Paper {
    let mut paper = draw_with(random, Asked::Covariance, Estimate::Given);
    let row = paper.question.assets;
    other_length(random, &mut paper.given, row);
    paper
}

/// Mostly by one more or fewer.
fn other_length(random: &Random, numbers: &mut Vec<u64>, row: usize) {
    let length = numbers.len();
    let other = match random.below(7) {
        0 | 1 => length + 1,
        2 | 3 => length.saturating_sub(1),
        4 => length + row,
        5 => length.saturating_sub(row),
        _ => 0,
    };
    let other = if other == length { length + 1 } else { other };
    numbers.resize_with(other, || draw_number(random));
}

fn unasked_entries(random: &Random) -> Paper {
    let asked = random.pick(&ASKED);
    let estimate = match asked {
        Asked::Covariance => draw_other(random),
        _ => draw_fitting(random, asked),
    };
    let mut paper = draw_with(random, asked, estimate);
    let n = paper.question.assets;
    let entries = random.pick(&[n * n, n * n, n, 1, n * n + 1]).max(1);
    paper.given = (0..entries).map(|_| draw_number(random)).collect();
    paper
}

// ---- settings

/// An estimate of a covariance that isn't given.
fn draw_other(random: &Random) -> Estimate {
    random.pick(&[Estimate::Sample, draw_semi(random), draw_decay(random)])
}

fn draw_weighted(random: &Random) -> Paper {
    draw_with(random, Asked::WeightedMean, draw_decay(random))
}

fn draw_stein(random: &Random) -> Asked {
    random.pick(&[Asked::JamesStein, Asked::BayesStein])
}

fn with_shrinkage(random: &Random, mut paper: Paper) -> Paper {
    paper.question.shrinkage = draw_shrinkage(random);
    paper
}

fn with_regularization(random: &Random, mut paper: Paper) -> Paper {
    paper.question.regularization = Some(draw_number(random));
    paper
}

/// One byte does not hold them; the low byte of some is a usual limit.
const LARGE_LIMITS: [usize; 9] = [
    256,
    256,
    257,
    256 + 100,
    1 << 16,
    (1 << 16) + 100,
    1 << 32,
    (1 << 32) + 100,
    usize::MAX,
];

fn large_limit(random: &Random) -> Paper {
    let mut paper = match random.below(2) {
        0 => draw_with(random, Asked::Covariance, Estimate::Given),
        _ => draw_with(random, draw_stein(random), Estimate::Sample),
    };
    paper.question.limit = Some(random.pick(&LARGE_LIMITS));
    paper
}

/// What is added to a record here never makes one that keeps the rules.
fn several(random: &Random) -> Paper {
    let (_, draw) = random.pick(&BREAKS[..BREAKS.len() - 1]);
    let mut paper = draw(random);
    for _ in 0..1 + random.below(3) {
        match random.below(4) {
            0 => paper = with_shrinkage(random, paper),
            1 => paper = with_regularization(random, paper),
            2 => paper.question.limit = Some(random.pick(&LARGE_LIMITS)),
            _ => paper.question.assets = random.pick(&HUGE),
        }
    }
    paper
}
