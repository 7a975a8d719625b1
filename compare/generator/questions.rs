// Document 02, Paper 5: question records as authors give them, of every kind of estimate, shrinkage,
// regularization, limit and question, with numbers of any bits, and outputs of any length; the same
// with a broken rule (broken.rs) or a number of no kind; and what is lent where a file is read.

use crate::broken::BREAKS;
use crate::given::draw_given;
use crate::random::Random;
use crate::returns::draw_returns;
use crate::settings::draw_target;
use crate::{draw_count, Shapes};
use reference::exam::{FILE_ASSETS, FILE_PERIODS};
use reference::flat_question::{Draft, FlatQuestion, Lent};
use reference::question::{Asked, Estimate, Paper, Question, Shrinkage};
use std::array;

const SHAPES: Shapes = Shapes {
    assets: 0..=FILE_ASSETS,
    periods: 0..=FILE_PERIODS,
};

/// Few returns, so that settings are much of a file.
const SHORT: Shapes = Shapes {
    assets: 0..=3,
    periods: 0..=4,
};

/// The covariance as often as the others together: it takes all settings.
pub const ASKED: [Asked; 6] = [
    Asked::Covariance,
    Asked::Covariance,
    Asked::Covariance,
    Asked::WeightedMean,
    Asked::JamesStein,
    Asked::BayesStein,
];

/// What a draft is drawn for, where it isn't a rule that it breaks.
pub const AUTHORED: &str = "as authors give it";
pub const OF_NO_KIND: &str = "a number of no kind";

/// A draft, and what it is drawn for.
pub fn draw_draft(random: &Random) -> (&'static str, Draft) {
    let (mut about, paper) = match random.below(2) {
        0 => (AUTHORED, draw_authored(random)),
        _ => {
            let (rule, draw) = random.pick(&BREAKS);
            (rule, draw(random))
        }
    };
    let mut draft = draw_draft_of(random, paper);
    if random.chance(5) {
        about = OF_NO_KIND;
        put_no_kind(random, &mut draft.record);
    }
    (about, draft)
}

/// With an output of any length.
fn draw_draft_of(random: &Random, paper: Paper) -> Draft {
    let Paper {
        question,
        returns,
        given,
    } = paper;
    let length = question.length(returns.len(), given.len());
    let length = match random.below(10) {
        0..=3 => length,
        4 | 5 => length - 1,
        6 => 0,
        7 => random.below(length),
        8 => length + 1 + random.below(20),
        _ => 2 * length,
    };
    let unread = random.pick(&[0, 1, draw_number(random)]);
    Draft {
        record: FlatQuestion::with_unread(&question, unread),
        returns,
        given,
        out: (0..length).map(|_| random.bits() as u8).collect(),
    }
}

/// One of the numbers, which may be of a kind by its low bits.
fn put_no_kind(random: &Random, record: &mut FlatQuestion) {
    let beyond = |kinds: u32| {
        let low = random.below(kinds as usize) as u32;
        random.pick(&[
            kinds,
            kinds,
            kinds + 1,
            low + (1 << 8),
            low + (1 << 16),
            low + (1 << 31),
            u32::MAX,
        ])
    };
    match random.below(5) {
        0 => record.estimate.0 = beyond(6),
        1 => record.shrinkage.0 = beyond(4),
        2 => record.regularization.0 = beyond(2),
        3 => record.limit.0 = beyond(2),
        _ => record.asked = beyond(4),
    }
}

// ---- records

/// A record that keeps the rules.
pub fn draw_authored(random: &Random) -> Paper {
    let asked = random.pick(&ASKED);
    draw_with(random, asked, draw_fitting(random, asked))
}

/// Any estimate that the question takes.
pub fn draw_fitting(random: &Random, asked: Asked) -> Estimate {
    match asked {
        Asked::Covariance if random.chance(30) => Estimate::Given,
        Asked::Covariance if random.chance(25) => Estimate::Sample,
        Asked::Covariance if random.chance(50) => draw_semi(random),
        Asked::Covariance | Asked::WeightedMean => draw_decay(random),
        Asked::JamesStein | Asked::BayesStein => Estimate::Sample,
    }
}

pub fn draw_semi(random: &Random) -> Estimate {
    random.pick(&[Estimate::Semi, Estimate::SemiBelow(draw_number(random))])
}

pub fn draw_decay(random: &Random) -> Estimate {
    let bits = draw_number(random);
    random.pick(&[Estimate::HalfLife(bits), Estimate::Factor(bits)])
}

pub fn draw_shrinkage(random: &Random) -> Shrinkage {
    match random.below(2) {
        0 => Shrinkage::Fixed(draw_number(random)),
        _ => Shrinkage::LedoitWolf(draw_target(random)),
    }
}

/// A byte: also those that are refused when the file is marked.
pub fn draw_limit(random: &Random) -> usize {
    random.pick(&[0, 1, 100, 100, 101, 255, random.below(256)])
}

/// Of any shape.
pub fn draw_with(random: &Random, asked: Asked, estimate: Estimate) -> Paper {
    let shapes = if random.chance(40) { &SHAPES } else { &SHORT };
    let least = usize::from(estimate == Estimate::Given);
    let n = draw_count(random, &shapes.assets).max(least);
    let t = draw_count(random, &shapes.periods);
    draw_of_shape(random, (n, t), asked, estimate)
}

/// Slices that fit the counts and the estimate, and the other settings that the question takes.
pub fn draw_of_shape(
    random: &Random,
    (n, t): (usize, usize),
    asked: Asked,
    estimate: Estimate,
) -> Paper {
    let given = match estimate {
        Estimate::Given => draw_numbers(random, n * n, || draw_given(random, n)),
        _ => Vec::new(),
    };
    let mut question = Question {
        assets: n,
        periods: t,
        estimate,
        shrinkage: Shrinkage::Unshrunk,
        regularization: None,
        limit: None,
        asked,
    };
    if asked == Asked::Covariance {
        question.shrinkage = random.pick(&[Shrinkage::Unshrunk, draw_shrinkage(random)]);
        question.regularization = random.pick(&[None, Some(draw_number(random))]);
    }
    let limited = match asked {
        Asked::Covariance => estimate == Estimate::Given,
        Asked::WeightedMean => false,
        Asked::JamesStein | Asked::BayesStein => true,
    };
    if limited && random.chance(60) {
        question.limit = Some(draw_limit(random));
    }
    Paper {
        question,
        returns: draw_numbers(random, t * n, || draw_returns(random, n, t)),
        given,
    }
}

// ---- numbers

/// As authors give them, or any, or the first with some of the second.
fn draw_numbers(random: &Random, count: usize, authored: impl Fn() -> Vec<f64>) -> Vec<u64> {
    if count == 0 {
        return Vec::new();
    }
    if random.chance(40) {
        return (0..count).map(|_| draw_number(random)).collect();
    }
    let mut numbers: Vec<u64> = authored().into_iter().map(f64::to_bits).collect();
    for _ in 0..random.pick(&[0, 1, 3]) {
        numbers[random.below(count)] = draw_number(random);
    }
    numbers
}

/// Any bits, often those of a zero, an infinity, a subnormal number, or a NaN, which is quiet where the
/// highest bit of its fraction is set, else signalling.
pub fn draw_number(random: &Random) -> u64 {
    const INFINITY: u64 = f64::INFINITY.to_bits();
    const QUIET: u64 = 1 << 51;
    let sign = random.bits() & (1 << 63);
    let fraction = random.bits() >> 12;
    match random.below(10) {
        0 => sign,
        1 => sign | INFINITY,
        2 => sign | INFINITY | QUIET | fraction,
        3 => sign | INFINITY | (fraction & !QUIET).max(1),
        4 => sign | INFINITY | random.pick(&[1, 2, QUIET - 1, QUIET, QUIET + 1, 2 * QUIET - 1]),
        5 => sign | random.pick(&[1, fraction]),
        6 => f64::to_bits(random.pick(&[0.5, 0.94, 1.0, 2.0, 3.0, -1.0])),
        _ => random.bits(),
    }
}

// ---- what is lent to the reader

/// Slices for so many numbers: as long, longer, by one too short, or empty.
pub fn draw_lent(random: &Random, returns: usize, given: usize) -> Lent {
    let lengths = [returns, given].map(|count| match random.below(10) {
        0..=4 => count,
        5 | 6 => count + 1 + random.below(3),
        7 | 8 => count.saturating_sub(1),
        _ => 0,
    });
    lent_of(random, lengths)
}

/// Slices that are as long, or longer.
pub fn draw_enough(random: &Random, returns: usize, given: usize) -> Lent {
    let lengths = [returns, given].map(|count| count + random.pick(&[0, 0, 1, 5]));
    lent_of(random, lengths)
}

fn lent_of(random: &Random, [returns, given]: [usize; 2]) -> Lent {
    let any = |count| (0..count).map(|_| random.bits()).collect();
    Lent {
        returns: any(returns),
        given: any(given),
        bits: array::from_fn(|_| random.bits()),
        wholes: array::from_fn(|_| random.bits() as usize),
    }
}
