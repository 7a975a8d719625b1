// Document 02, Paper 1, at its corners: the log's steps, which decay factors are accepted, the order
// of the refusals, and the question files, each at a small input that shows it.

use crate::{factor_papers, Table};
use reference::covariance::{Decay, Estimate, Settings, Target};
use reference::exam::exam;
use reference::input::{Call, Input};
use reference::leaves::{ln, pow2_scaled};

const RETURNS: [f64; 2] = [1.0, 4.0];

/// The smallest factor that is accepted, and the number below it.
const SMALLEST: f64 = f64::from_bits(0x0017C8AB2288C82F);
const TOO_SMALL: f64 = f64::from_bits(0x0017C8AB2288C82E);

pub fn all(table: &mut Table) {
    logs(table);
    accepted(table);
    denominator(table);
    order(table);
    papers(table);
}

fn weighted(factor: f64) -> Settings {
    Settings::of(Estimate::ExponentiallyWeighted(Decay::Lambda(factor)))
}

fn logs(table: &mut Table) {
    let log = |x: f64| format!("{:016X}", ln(x).to_bits());
    table.line("log of 0.5", &log(0.5), "BFE62E42FEFA39EF");
    table.line("log of 0.94", &log(0.94), "BFAFAE2206CABE3F");
    table.line("log of 0.9", &log(0.9), "BFBAF8E8210A415B");
    let largest = 1.0 - pow2_scaled(1.0, -53);
    table.line("log of 1 - 2^-53", &log(largest), "BCA0000000000000");
    // A series from 1/23 has another last digit.
    let told = log(f64::from_bits(0x3FE7F7D3C17D7D52));
    table.line("log of 3FE7F7D3C17D7D52", &told, "BFD27F3119626ADF");
    // 1.5 isn't halved.
    let told = log(pow2_scaled(1.5, -23));
    table.line("log of 1.5 by -23", &told, "C02F12E72F21B686");
    table.line("the smallest log", &log(SMALLEST), "C086200000000000");
    table.line("the log below", &log(TOO_SMALL), "C086200000000001");
}

fn accepted(table: &mut Table) {
    let mean = |factor: f64| {
        let decay = Decay::Lambda(factor);
        Input::new(&RETURNS, 1, Call::ExponentiallyWeightedMean { decay })
    };
    let covariance = |factor| Input::covariance(&RETURNS, 1, weighted(factor));
    let (nan, infinity) = (f64::NAN, f64::INFINITY);
    for factor in [1.0, 0.0, -0.0, -0.5, nan, 2.0, infinity, TOO_SMALL] {
        let what = format!("factor {factor:e}");
        table.line(&what, &covariance(factor).told(), "refused 7 at 6");
        table.line("its mean", &mean(factor).told(), "refused 7 at 6");
    }
    let both = [covariance(SMALLEST), mean(SMALLEST)].map(|input| input.answered().0.is_ok());
    table.line("smallest factor", &format!("{both:?}"), "[true, true]");
}

fn denominator(table: &mut Table) {
    // From the exp of the log; from the factor itself, the last digit is 0.
    let (_, answer) = Input::covariance(&[-3.0, 0.0, -1.0], 1, weighted(0.18)).answered();
    let told = format!("{:016X}", answer[0].to_bits());
    table.line("factor 0.18", &told, "3FEA8C091F2A7BD2");
}

fn order(table: &mut Table) {
    let told = |settings| Input::covariance(&RETURNS, 1, settings).told();
    for target in [Target::ConstantVariance, Target::ConstantCorrelation] {
        let settings = weighted(2.0).ledoit_wolf(target);
        table.line("factor 2, Ledoit-Wolf", &told(settings), "refused 7 at 6");
        let settings = weighted(0.5).ledoit_wolf(target);
        table.line("factor 0.5, Ledoit-Wolf", &told(settings), "refused 8");
    }
    let shrunk = weighted(2.0).shrinkage(2.0);
    table.line("factor 2, shrinkage 2", &told(shrunk), "refused 7 at 2");
    let settings = shrunk.regularization(-1.0);
    table.line("and regularization -1", &told(settings), "refused 7 at 1");
}

fn papers(table: &mut Table) {
    for (about, file, text) in factor_papers::all() {
        let printed = String::from_utf8(exam(&file)).expect("a text");
        let what = format!("factor in a file, {about}");
        table.line(&what, printed.trim_end(), text.trim_end());
    }
}
