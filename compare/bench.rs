// Times the engine and the copy on the same inputs, in turns and in one process, by the processor's
// time, so that a busy machine matters little: the median times for one input, and the median ratio
// of the turns. Below stands what numpy and scikit-learn take on the same returns and prices, in one
// thread, where a python3 has them.

mod peers;
mod stopwatch;

use engine::calls::{answer_into, returns_from_prices};
use engine::jacobi::decompose;
use generator::given::product;
use generator::prices::walks;
use generator::random::Random;
use generator::returns::{realistic, set_column};
use reference::covariance::{Decay, Estimate, Settings, Target};
use reference::eigen::SymmetricEigen;
use reference::input::{Call, Input};
use reference::matrix::Matrix;
use reference::prices;
use reference::{MAX_PERIODS, MAX_PRICE_ROWS, MAX_SIDE, MAX_SWEEPS};
use std::hint::black_box;
use stopwatch::{median, micros};

/// Assets, periods, how many inputs, how many turns.
const SHAPES: [(usize, usize, usize, usize); 3] = [
    (8, 128, 100, 41),
    (MAX_SIDE, 512, 4, 31),
    (MAX_SIDE, MAX_PERIODS, 1, 21),
];

/// Assets, rows of prices, how many inputs, how many turns.
const PRICE_SHAPES: [(usize, usize, usize, usize); 2] =
    [(MAX_SIDE, 513, 40, 41), (MAX_SIDE, MAX_PRICE_ROWS, 5, 41)];

fn main() {
    println!(
        "{:40} {:>10} {:>10} {:>6}",
        "call", "engine µs", "copy µs", "ratio"
    );
    let random = Random::new(4);
    for (assets, periods, count, turns) in SHAPES {
        let returns: Vec<Vec<f64>> = (0..count)
            .map(|_| realistic(&random, assets, periods))
            .collect();
        let given = product(&random, assets, 2 * assets);
        for (name, call) in calls(&given, assets) {
            let name = format!("{name}, {assets} × {periods}");
            timed(&name, turns, &returns, assets, &call);
        }
        peers::note(peers::RETURNS, &returns[0], assets, periods);
    }
    for (side, count) in [(8, 200), (16, 40), (MAX_SIDE, 8)] {
        decomposition(&random, side, count);
    }
    for (assets, rows, count, turns) in PRICE_SHAPES {
        let mut prices: Vec<Vec<f64>> = (0..count).map(|_| walks(&random, assets, rows)).collect();
        let name = format!("returns from prices, {assets} × {rows}");
        timed_prices(&name, turns, &prices, assets, rows);
        peers::note(peers::PRICES, &prices[0], assets, rows);
        if rows == MAX_PRICE_ROWS {
            prices.iter_mut().for_each(|prices| enlarge(prices, assets));
            let name = format!("and one column by 1e200, {assets} × {rows}");
            timed_prices(&name, turns, &prices, assets, rows);
        }
    }
    peers::print();
}

/// Every call, the covariance with each estimate and with each target of Ledoit and Wolf. The factor
/// decays about as fast as the half-life.
fn calls(given: &[f64], side: usize) -> Vec<(&'static str, Call)> {
    let covariance = |settings: Settings| Call::AdjustedCovariance {
        settings,
        given: given.to_vec(),
        side,
    };
    let of = |estimate| covariance(Settings::of(estimate));
    let (half_life, factor) = (Decay::HalfLife(60.0), Decay::Lambda(0.9885));
    let weighted = |decay| of(Estimate::ExponentiallyWeighted(decay));
    let shrunk = |target| covariance(Settings::of(Estimate::Sample).ledoit_wolf(target));
    let limit = MAX_SWEEPS;
    vec![
        ("sample covariance", of(Estimate::Sample)),
        ("weighted covariance", weighted(half_life)),
        ("weighted covariance by factor", weighted(factor)),
        ("semicovariance", of(Estimate::Semi)),
        ("semicovariance below 0", of(Estimate::SemiBelow(0.0))),
        ("given covariance", of(Estimate::Given)),
        ("shrunk to variance", shrunk(Target::ConstantVariance)),
        ("shrunk to correlation", shrunk(Target::ConstantCorrelation)),
        (
            "Ledoit-Wolf, variance",
            Call::LedoitWolf(Target::ConstantVariance),
        ),
        (
            "Ledoit-Wolf, correlation",
            Call::LedoitWolf(Target::ConstantCorrelation),
        ),
        (
            "weighted mean",
            Call::ExponentiallyWeightedMean { decay: half_life },
        ),
        (
            "weighted mean by factor",
            Call::ExponentiallyWeightedMean { decay: factor },
        ),
        ("James-Stein mean", Call::JamesSteinMean { limit }),
        ("Bayes-Stein mean", Call::BayesSteinMean { limit }),
    ]
}

fn timed(name: &str, turns: usize, returns: &[Vec<f64>], assets: usize, call: &Call) {
    let inputs: Vec<Input> = returns
        .iter()
        .map(|returns| Input::new(returns, assets, call.clone()))
        .collect();
    let mut answer = inputs[0].answer.clone();
    let engine = || {
        for input in &inputs {
            let flat = answer_into(input, &mut answer);
            assert_eq!(flat.number, 0);
            black_box(&answer);
        }
    };
    let copy = || {
        for input in &inputs {
            let _ = black_box(input.answered());
        }
    };
    line(name, turns, inputs.len(), engine, copy);
}

/// The last column times 1e200.
fn enlarge(prices: &mut [f64], assets: usize) {
    let last = assets - 1;
    let column: Vec<f64> = prices[last..].iter().step_by(assets).copied().collect();
    set_column(prices, assets, last, |row| column[row] * 1e200);
}

fn timed_prices(name: &str, turns: usize, prices: &[Vec<f64>], assets: usize, rows: usize) {
    let mut computed = vec![0.0; (rows - 1) * assets];
    let mut copied = computed.clone();
    let engine = || {
        for prices in prices {
            let flat = returns_from_prices(prices, (assets, rows), &mut computed);
            assert_eq!(flat.number, 0);
            black_box(&computed);
        }
    };
    let copy = || {
        for prices in prices {
            let answer = prices::returns_from_prices(prices, assets, rows, &mut copied);
            assert!(answer.is_ok());
            black_box(&copied);
        }
    };
    line(name, turns, prices.len(), engine, copy);
}

/// One line of the table: `engine` and `copy` each treat all of the inputs.
fn line(name: &str, turns: usize, inputs: usize, mut engine: impl FnMut(), mut copy: impl FnMut()) {
    let turns: Vec<(f64, f64)> = (0..turns)
        .map(|_| (micros(&mut engine), micros(&mut copy)))
        .collect();
    let one = |total: f64| total / inputs as f64;
    println!(
        "{name:40} {:>10.1} {:>10.1} {:>6.2}",
        one(median(turns.iter().map(|turn| turn.0))),
        one(median(turns.iter().map(|turn| turn.1))),
        median(turns.iter().map(|turn| turn.0 / turn.1))
    );
}

fn decomposition(random: &Random, side: usize, count: usize) {
    let matrices: Vec<Vec<f64>> = (0..count)
        .map(|_| product(random, side, 2 * side))
        .collect();
    let (mut values, mut vectors) = (vec![0.0; side], vec![0.0; side * side]);
    let mut counts = [0; 2];
    let engine = || {
        for a in &matrices {
            let found = decompose(a, side, MAX_SWEEPS, &mut values, &mut vectors, &mut counts);
            black_box((found, &values, &vectors));
        }
    };
    let copy = || {
        for a in &matrices {
            let a = Matrix::from_row_slice(side, side, a);
            black_box(SymmetricEigen::new(&a, MAX_SWEEPS));
        }
    };
    line(&format!("decomposition, {side}"), 41, count, engine, copy);
}
