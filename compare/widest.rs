// Document 02, Paper 2: what is answered just within the limit of twenty-four assets, just beyond it,
// and up to the limit of thirty-two that document 01 had.

use crate::Table;
use reference::covariance::{Decay, Estimate, Settings, Target};
use reference::input::{Call, Input};

pub fn all(table: &mut Table) {
    returns(table);
    given(table);
    order(table);
}

/// Two periods: every asset has variance 0.5.
fn returns_of(n: usize) -> Vec<f64> {
    [vec![0.0; n], vec![1.0; n]].concat()
}

fn identity(side: usize) -> Vec<f64> {
    let mut entries = vec![0.0; side * side];
    entries.iter_mut().step_by(side + 1).for_each(|x| *x = 1.0);
    entries
}

/// Whether the call accepts, or its refusal.
fn verdict(input: &Input) -> String {
    match input.answered().0 {
        Ok(_) => "accepted".to_string(),
        Err(_) => input.told(),
    }
}

/// What the five calls say of that many assets.
fn verdicts(n: usize) -> String {
    let limit = 100;
    let decay = Decay::HalfLife(1.0);
    let settings = Settings::of(Estimate::Sample);
    let others = [
        Call::LedoitWolf(Target::ConstantVariance),
        Call::ExponentiallyWeightedMean { decay },
        Call::JamesSteinMean { limit },
        Call::BayesSteinMean { limit },
    ];
    let mut told = vec![verdict(&Input::covariance(&returns_of(n), n, settings))];
    told.extend(others.map(|call| verdict(&Input::new(&returns_of(n), n, call))));
    told.join(", ")
}

fn returns(table: &mut Table) {
    for n in [23, 24] {
        // The columns are equal: the covariance has no inverse.
        let should_be = "accepted, accepted, accepted, accepted, refused 14";
        table.line(&format!("{n} assets"), &verdicts(n), should_be);
    }
    for n in 25..=33 {
        let should_be = ["refused 2"; 5].join(", ");
        table.line(&format!("{n} assets"), &verdicts(n), &should_be);
    }
    let zeros = Input::covariance(&[0.0; 48], 24, Settings::of(Estimate::Sample));
    table.line("24 assets of zeros", &zeros.told(), "refused 9 at 0");
}

fn given(table: &mut Table) {
    let settings = Settings::of(Estimate::Given);
    let beside = |n: usize, side: usize| {
        let (returns, given) = (returns_of(n), identity(side));
        verdict(&Input::with_given(&returns, n, settings, &given, side))
    };
    table.line("given side 23", &beside(23, 23), "accepted");
    table.line("given side 24", &beside(24, 24), "accepted");
    table.line("beside 23 assets", &beside(23, 24), "refused 10 at 24");
    for side in 25..=33 {
        let told = [beside(1, side), beside(24, side), beside(side, side)].join(", ");
        let should_be = ["refused 2"; 3].join(", ");
        table.line(&format!("given side {side}"), &told, &should_be);
    }
    let empty = |side| Input::with_given(&[1.0, 3.0], 1, settings, &[], side).told();
    table.line("given side 24, empty slice", &empty(24), "refused 10 at 24");
    table.line("given side 25, empty slice", &empty(25), "refused 2");
}

fn order(table: &mut Table) {
    let given = Settings::of(Estimate::Given);
    let shaped = |n, t| {
        let one = Input::with_given(&[1.0, 3.0], 1, given, &[], 25);
        Input { n, t, ..one }.told()
    };
    table.line("24 assets, 1 period", &shaped(24, 1), "refused 3 at 1");
    table.line("25 assets, 1 period", &shaped(25, 1), "refused 2");
    let told = Input::with_given(&[1.0, 3.0], 1, given.limit(101), &[], 25).told();
    table.line("limit 101, given side 25", &told, "refused 7 at 5");
    let told = Input::with_given(&[1.0, 3.0], 1, given.limit(0), &[], 25).told();
    table.line("limit 0, given side 25", &told, "refused 2");
    let told = Input::with_given(&[1.0, f64::NAN], 1, given, &[], 25).told();
    table.line("NaN, given side 25", &told, "refused 5 at 1 0");
}
