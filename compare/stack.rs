// The stack that the engine's calls take, on Linux: for each call the most bytes over drawn inputs,
// good and damaged, for the marker over drawn question files, and for the call that takes prices over
// drawn prices. What a call takes depends on its way, not on the size of the matrices. Argument: how
// many inputs, and as many files and prices.

mod argument;
mod painted;

use engine::calls::{answer_into, returns_from_prices};
use engine::exam::mark;
use generator::papers::draw_paper;
use generator::prices::draw_prices;
use generator::random::Random;
use generator::{draw, Shapes};
use painted::Stack;
use reference::input::Call;
use reference::{MAX_SIDE, MIN_PERIODS, MIN_PRICE_ROWS};
use std::collections::BTreeMap;

/// What include/engine.h says is always enough for a text.
const ENOUGH: usize = 8192;

fn main() {
    let inputs = argument::whole(1, 10_000);
    let random = Random::new(9);
    let mut stack = Stack::new();
    let mut most = BTreeMap::new();
    let mut note = |name, taken: usize| {
        let so_far = most.entry(name).or_insert(0);
        *so_far = taken.max(*so_far);
    };
    let shapes = Shapes {
        assets: 1..=MAX_SIDE,
        periods: MIN_PERIODS..=64,
    };
    for _ in 0..inputs {
        let input = draw(&random, &shapes);
        let mut answer = input.answer.clone();
        let taken = stack.taken(&mut || {
            answer_into(&input, &mut answer);
        });
        note(name(&input.call), taken);

        let paper = draw_paper(&random);
        let mut out = [0; ENOUGH];
        let taken = stack.taken(&mut || {
            mark(&paper, &mut out);
        });
        note("exam_mark", taken);
    }
    let shapes = Shapes {
        assets: 1..=MAX_SIDE,
        periods: MIN_PRICE_ROWS..=64,
    };
    for _ in 0..inputs {
        let mut input = draw_prices(&random, &shapes);
        let shape = (input.n, input.rows);
        let taken = stack.taken(&mut || {
            returns_from_prices(&input.prices, shape, &mut input.returns);
        });
        note("engine_returns_from_prices", taken);
    }
    println!("{:30} {:>7}", "call", "bytes");
    for (name, taken) in most {
        println!("{name:30} {taken:>7}");
    }
}

/// The export's name.
fn name(call: &Call) -> &'static str {
    match call {
        Call::AdjustedCovariance { .. } => "engine_adjusted_covariance",
        Call::LedoitWolf(_) => "engine_ledoit_wolf",
        Call::ExponentiallyWeightedMean { .. } => "engine_weighted_mean",
        Call::JamesSteinMean { .. } => "engine_james_stein_mean",
        Call::BayesSteinMean { .. } => "engine_bayes_stein_mean",
    }
}
