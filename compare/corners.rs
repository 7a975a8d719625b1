// Where document 01 and the source meet: the order of the refusals, the decomposition and the
// arithmetic, each at a small input that shows it.

use crate::Table;
use reference::covariance::{Estimate, Settings, Target};
use reference::eigen::{rotate, SymmetricEigen};
use reference::input::{Call, Input};
use reference::leaves::{clamp01, exp, max0, pow2_scaled};
use reference::matrix::Matrix;
use reference::methods::correlation;

/// Two assets with a sample covariance of 2, 4, 4, 8, and two whose second is constant.
const ROWS: [f64; 4] = [1.0, 2.0, 3.0, 6.0];
const CONSTANT: [f64; 6] = [1.0, 1.0, 2.0, 1.0, 4.0, 1.0];

pub fn all(table: &mut Table) {
    order_of_shapes(table);
    order_of_given(table);
    order_of_constant(table);
    order_of_means(table);
    decomposition(table);
    rotations(table);
    zeros(table);
    arithmetic(table);
    leaves(table);
}

fn order_of_shapes(table: &mut Table) {
    let sample = Settings::of(Estimate::Sample);
    let shaped = |n, t| {
        let rows = Input::covariance(&ROWS, 2, sample);
        Input { n, t, ..rows }.told()
    };
    table.line("25 assets, 1 period", &shaped(25, 1), "refused 2");
    table.line(
        "0 assets, many periods",
        &shaped(0, usize::MAX),
        "refused 1",
    );
    table.line(
        "the most assets a count holds",
        &shaped(usize::MAX, 2),
        "refused 2",
    );
    let short = Input {
        answer: vec![0.0; 3],
        ..Input::covariance(&[f64::NAN; 4], 2, sample)
    };
    table.line("short answer, NaN", &short.told(), "refused 4");
    let told = Input::covariance(&ROWS, 2, sample.limit(101)).told();
    let should_be = "2 4 4 8, intensity 0, sweeps 0, rotations 0";
    table.line("sample, limit 101", &told, should_be);
}

fn order_of_given(table: &mut Table) {
    let given = Settings::of(Estimate::Given);
    let told = Input::with_given(&ROWS, 2, given.limit(101), &[], 0).told();
    table.line("limit 101, side 0", &told, "refused 7 at 5");
    let one = |settings| Input::with_given(&ROWS, 2, settings, &[1.0], 1).told();
    let bad = given.regularization(-1.0);
    table.line(
        "limit 0, regularization -1",
        &one(bad.limit(0)),
        "refused 13",
    );
    table.line("regularization -1, wrong side", &one(bad), "refused 7 at 1");
    let told = one(given.ledoit_wolf(Target::ConstantCorrelation));
    table.line("Ledoit-Wolf, wrong side", &told, "refused 8");
    table.line("wrong side", &one(given), "refused 10 at 1");
}

fn order_of_constant(table: &mut Table) {
    let sample = Settings::of(Estimate::Sample).regularization(1.0);
    let call = Call::LedoitWolf(Target::ConstantCorrelation);
    let told = Input::new(&CONSTANT, 2, call).told();
    table.line("constant column asked", &told, "refused 9 at 1");
    let shrunk = |target| Input::covariance(&CONSTANT, 2, sample.ledoit_wolf(target));
    let told = shrunk(Target::ConstantCorrelation).told();
    table.line("and regularized", &told, "refused 9 at 1");
    let accepted = shrunk(Target::ConstantVariance).answered().0.is_ok();
    table.line(
        "accepted to constant variance",
        &accepted.to_string(),
        "true",
    );
}

fn order_of_means(table: &mut Table) {
    let bayes = |returns: &[f64], n, limit| {
        let call = Call::BayesSteinMean { limit };
        Input::new(returns, n, call).told()
    };
    let told = bayes(&CONSTANT, 2, 101);
    table.line("Bayes-Stein, limit 101", &told, "refused 7 at 5");
    let told = bayes(&CONSTANT, 2, 0);
    table.line("constant column, limit 0", &told, "refused 9 at 1");
    table.line(
        "one asset, limit 0",
        &bayes(&[1.0, 3.0], 1, 0),
        "refused 14",
    );
    let james = |returns: &[f64], n, limit| {
        let call = Call::JamesSteinMean { limit };
        Input::new(returns, n, call).told()
    };
    let told = james(&[1.0, 3.0, 3.0, 1.0], 2, 0);
    let should_be = "2 2, intensity 0, target 2, sweeps 0, rotations 0";
    table.line("James-Stein, equal means, limit 0", &told, should_be);
    // The means are equal, but their computed average is another number.
    let told = james(&[0.0, 0.0, 0.0, 0.003, 0.003, 0.003], 3, 0);
    table.line("equal means, another average", &told, "refused 14");
}

fn decomposition(table: &mut Table) {
    let given = Settings::of(Estimate::Given);
    let one = |entry| Input::with_given(&[1.0, 3.0], 1, given, &[entry], 1).told();
    table.line("average overflows", &one(f64::MAX), "refused 13");
    table.line("given -3", &one(-3.0), "refused 12 at -3");
    let two = |settings, matrix| Input::with_given(&ROWS, 2, settings, matrix, 2).told();
    let told = two(given.limit(0).regularization(1.0), &[0.0; 4]);
    let should_be = "1 0 0 1, intensity 0, sweeps 0, rotations 0";
    table.line("zero given, limit 0, regularization 1", &told, should_be);
    let told = two(given, &[1.0, 0.0, 0.0, -1e-15]);
    let should_be = "1 0 0 -0.000000000000001, intensity 0, sweeps 0, rotations 0";
    table.line("slightly negative variance", &told, should_be);

    let cov = Matrix::from_row_slice(2, 2, &[19.0, 4.0, 4.0, 45.0]);
    let alike = correlation(&cov).map(|(c, _)| c[(0, 1)] == c[(1, 0)]);
    let what = "correlations symmetric to the last bit";
    table.line(what, &format!("{alike:?}"), "Ok(false)");
}

fn rotations(table: &mut Table) {
    // The product with the identity makes the last entry +0, and the angle positive.
    let matrix = Matrix::from_row_slice(2, 2, &[0.0, 1.0, 1.0, -0.0]);
    let eigen = SymmetricEigen::new(&matrix, 100).map(|e| (e.vectors[(0, 1)] > 0.0, e.rotations));
    table.line(
        "-0 on the diagonal",
        &format!("{eigen:?}"),
        "Some((true, 1))",
    );

    let turned = |entries: [f64; 4]| {
        let (mut a, mut v) = (Matrix::from_row_slice(2, 2, &entries), Matrix::identity(2));
        format!("{} {:e}", rotate(&mut a, &mut v, 0, 1), v[(0, 1)])
    };
    let told = turned([0.0, 1e-160, 1e-160, 1.0]);
    table.line("τ above 1e150", &told, "true 1e-160");
    let told = turned([0.0, -0.0, -0.0, 1.0]);
    table.line("entry 0", &told, "false 0e0");
}

fn zeros(table: &mut Table) {
    let given = Settings::of(Estimate::Given);
    let told = |settings| Input::with_given(&ROWS, 2, settings, &[1.0, -0.0, -0.0, 1.0], 2).told();
    let kept = "1 -0 -0 1, intensity 0, sweeps 0, rotations 0";
    table.line("-0 given", &told(given), kept);
    table.line("regularization -0", &told(given.regularization(-0.0)), kept);
    let lost = "1 0 0 1, intensity 0, sweeps 0, rotations 0";
    table.line("regularization 0", &told(given.regularization(0.0)), lost);
    let reported = "1 -0 -0 1, intensity -0, sweeps 0, rotations 0";
    table.line("shrinkage -0", &told(given.shrinkage(-0.0)), reported);
}

fn arithmetic(table: &mut Table) {
    // Variances whose sum overflows: accepted as they are, but not with any intensity.
    let given = Settings::of(Estimate::Given);
    let huge = [8e307, 0.0, 0.0, 0.0, 8e307, 0.0, 0.0, 0.0, 8e307];
    let three =
        |settings| Input::with_given(&[1.0, 2.0, 4.0, 2.0, 1.0, 1.0], 3, settings, &huge, 3);
    let accepted = three(given).answered().0.is_ok();
    table.line("trace overflows", &accepted.to_string(), "true");
    table.line(
        "and shrinkage 0",
        &three(given.shrinkage(0.0)).told(),
        "refused 6",
    );

    let rows = [
        0.023, 0.017, -0.069, 0.026, -0.017, 0.031, 0.099, -0.044, -0.091, 0.071, -0.036, -0.069,
    ];
    let settings = Settings::of(Estimate::Sample).ledoit_wolf(Target::ConstantCorrelation);
    let (_, answer) = Input::covariance(&rows, 3, settings).answered();
    let alike = answer[1] == answer[3];
    let what = "constant correlation symmetric to the last bit";
    table.line(what, &alike.to_string(), "false");

    let (large, small) = (pow2_scaled(1.0, 300), pow2_scaled(1.0, -300));
    let rows = [large, small, -large, small, large, -small];
    let told = Input::new(&rows, 2, Call::LedoitWolf(Target::ConstantCorrelation)).told();
    table.line("columns of 2^300 and 2^-300", &told, "intensity 0");
}

fn leaves(table: &mut Table) {
    // Rounded once it would be 2^-1074.
    let twice = pow2_scaled(0.25 + pow2_scaled(1.0, -54), -1073);
    table.line("two roundings", &twice.to_string(), "0");
    let clamped = [clamp01(f64::NAN), clamp01(-0.0), clamp01(2.0)];
    table.line("clamp", &format!("{clamped:?}"), "[NaN, -0.0, 1.0]");
    let cut = [max0(f64::NAN), max0(-0.0), max0(-1.0)];
    table.line("max(y, 0)", &format!("{cut:?}"), "[0.0, 0.0, 0.0]");
    let ends = [exp(-0.0), exp(f64::NEG_INFINITY), exp(f64::NAN)];
    table.line("exp", &format!("{ends:?}"), "[1.0, 0.0, NaN]");
}
