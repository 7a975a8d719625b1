// Document 01's twelve cases as the copy computes them, held to the values that it states, then the
// corners where document 01 and the source meet, and those of document 02. Ends with 1 if one differs.

mod authored;
mod authored_papers;
mod case6;
mod corners;
mod factor_papers;
mod factors;
mod minus_zero;
mod priced;
mod rounded;
mod widest;

use reference::covariance::{Decay, Estimate, Settings};
use reference::exam::exam;
use reference::expected_returns::exponential_weights;
use reference::input::{Call, Input};
use reference::leaves::{binary_exponent, pow2, pow2_scaled, sqrt, LN_2};

/// Prints each line and counts those that are not as they should be.
struct Table {
    wrong: usize,
}

impl Table {
    fn line(&mut self, what: &str, is: &str, should_be: &str) {
        println!("{what}: {is}");
        if is != should_be {
            println!("    should be: {should_be}");
            self.wrong += 1;
        }
    }
}

fn main() {
    let mut table = Table { wrong: 0 };
    leaves(&mut table);
    means(&mut table);
    covariances(&mut table);
    given_matrices(&mut table);
    james_stein(&mut table);
    corners::all(&mut table);
    factors::all(&mut table);
    widest::all(&mut table);
    rounded::all(&mut table);
    priced::all(&mut table);
    authored::all(&mut table);
    println!("differences: {}", table.wrong);
    if table.wrong > 0 {
        std::process::exit(1);
    }
}

fn leaves(table: &mut Table) {
    let least = f64::from_bits(1);
    let exponents = [0.0, least, f64::MAX].map(binary_exponent);
    table.line("1. b", &format!("{exponents:?}"), "[0, -1074, 1023]");

    let scaled = pow2_scaled(1.0, -1074) == least;
    table.line("2. 1 by -1074 is 2^-1074", &scaled.to_string(), "true");
    let scaled = pow2_scaled(1.0, 1024);
    table.line("2. 1 by 1024", &scaled.to_string(), "inf");

    let root = format!("{:016X}", sqrt(2.0).to_bits());
    table.line("3. sqrt(2)", &root, "3FF6A09E667F3BCD");
    let root = sqrt(least) == pow2(-537);
    table.line("3. sqrt(2^-1074) is 2^-537", &root.to_string(), "true");
}

fn means(table: &mut Table) {
    let mean = |half_life: f64| {
        let decay = Decay::HalfLife(half_life);
        let call = Call::ExponentiallyWeightedMean { decay };
        Input::new(&[1.0, 4.0], 1, call).told()
    };
    table.line("4. half-life 0.001", &mean(0.001), "4");
    table.line("4. half-life 0.0009", &mean(0.0009), "refused 7 at 3");

    let weights = format!("{:?}", exponential_weights(2, -LN_2));
    table.line("5. weights", &weights, "[0.5, 1.0]");
    table.line("5. mean", &mean(1.0), "3");
}

fn covariances(table: &mut Table) {
    let sample = Settings::of(Estimate::Sample);
    let rows = |settings| Input::covariance(&[1.0, 2.0, 3.0, 6.0], 2, settings).told();
    let should_be = "2 4 4 8, intensity 0, sweeps 0, rotations 0";
    table.line("6. sample", &rows(sample), should_be);
    let printed = exam(&case6::PAPER) == case6::TEXT;
    table.line("6. printed", &printed.to_string(), "true");
    let should_be = "3 4 4 9, intensity 0, sweeps 0, rotations 0";
    table.line(
        "7. regularization 1",
        &rows(sample.regularization(1.0)),
        should_be,
    );
    let should_be = "3.5 2 2 6.5, intensity 0.5, sweeps 0, rotations 0";
    table.line("8. shrinkage 0.5", &rows(sample.shrinkage(0.5)), should_be);

    let equal = |settings| Input::covariance(&[1.0; 4], 2, settings).told();
    table.line("9. equal rows", &equal(sample), "refused 9 at 0");
    let told = equal(sample.regularization(0.0));
    table.line("9. regularization 0", &told, "refused 9 at 0");
    let told = equal(sample.shrinkage(0.5));
    table.line("9. shrinkage 0.5", &told, "refused 14");
}

fn given_matrices(table: &mut Table) {
    let given = Settings::of(Estimate::Given);
    let one = |entry, settings| Input::with_given(&[1.0, 3.0], 1, settings, &[entry], 1).told();
    table.line("10. given -1", &one(-1.0, given), "refused 12 at -1");
    table.line("10. given 0", &one(0.0, given), "refused 9 at 0");
    let should_be = "1, intensity 0, sweeps 0, rotations 0";
    let told = one(0.0, given.regularization(1.0));
    table.line("10. regularization 1", &told, should_be);
    table.line("11. limit 0", &one(1.0, given.limit(0)), "refused 13");
    table.line("11. limit 1", &one(1.0, given.limit(1)), should_be);
}

fn james_stein(table: &mut Table) {
    let told = Input::new(&[1.0, 3.0], 1, Call::JamesSteinMean { limit: 100 }).told();
    let should_be = "2, intensity 0, target 2, sweeps 0, rotations 0";
    table.line("12. James-Stein", &told, should_be);
}
