// Document 02, Paper 4, at its corners: the order of the refusals with their places, the two roundings,
// quotients that overflow or vanish, and the counts and lengths about their limits.

use crate::Table;
use reference::covariance::{Estimate, Settings};
use reference::input::Input;
use reference::prices::Prices;

/// The least number above 0, which the lines call t, and the largest, M.
const LEAST: f64 = 5e-324;
const LARGEST: f64 = f64::MAX;
const NAN: f64 = f64::NAN;
const INFINITY: f64 = f64::INFINITY;

pub fn all(table: &mut Table) {
    numbers(table);
    returns(table);
    shapes(table);
    lengths(table);
    kept(table);
}

/// Three rows or more of one asset.
fn one(prices: &[f64]) -> String {
    Prices::new(prices, 1).told()
}

fn two(prices: [[f64; 2]; 3]) -> String {
    Prices::new(prices.as_flattened(), 2).told()
}

fn numbers(table: &mut Table) {
    let mut line = |what, told: String, should_be| table.line(what, &told, should_be);
    // A return's place is counted in the return matrix.
    line(
        "prices t, 1, 1",
        one(&[LEAST, 1.0, 1.0]),
        "refused 5 at 0 0",
    );
    line(
        "prices 1, t, 1",
        one(&[1.0, LEAST, 1.0]),
        "refused 5 at 1 0",
    );
    let told = two([[1.0, 1.0], [1.0, LEAST], [LEAST, 1.0]]);
    line("prices 1 1, 1 t, t 1", told, "refused 5 at 1 1");
    // All prices are looked at for one cause, then all for the next.
    line(
        "prices 0, NaN, 1",
        one(&[0.0, NAN, 1.0]),
        "refused 5 at 1 0",
    );
    let told = two([[1.0, -1.0], [0.0, 1.0], [1.0, INFINITY]]);
    line("prices 1 -1, 0 1, 1 ∞", told, "refused 5 at 2 1");
    line(
        "prices t, 1, 0",
        one(&[LEAST, 1.0, 0.0]),
        "refused 16 at 2 0",
    );
    line(
        "prices t, 1, NaN",
        one(&[LEAST, 1.0, NAN]),
        "refused 5 at 2 0",
    );
    line(
        "prices 1, -0, 0",
        one(&[1.0, -0.0, 0.0]),
        "refused 16 at 1 0",
    );
    line(
        "prices 1, 1, -t",
        one(&[1.0, 1.0, -LEAST]),
        "refused 16 at 2 0",
    );
    let told = two([[1.0, 2.0], [3.0, -4.0], [-5.0, 6.0]]);
    line("prices 1 2, 3 -4, -5 6", told, "refused 16 at 1 1");
    line(
        "prices 1, ∞, 1",
        one(&[1.0, INFINITY, 1.0]),
        "refused 5 at 1 0",
    );
    line(
        "prices -∞, 1, 1",
        one(&[-INFINITY, 1.0, 1.0]),
        "refused 5 at 0 0",
    );
}

fn returns(table: &mut Table) {
    let told = one(&[LARGEST, LEAST, LEAST]);
    table.line("prices M, t, t", &told, "-1.0 0.0");
    let told = one(&[1.0, LARGEST, LARGEST]);
    table.line("prices 1, M, M", &told, "1.7976931348623157e308 0.0");
    // Over 1 - 2^-53, M is 2^1024, and the number below M is nearest to M.
    let below = |last: f64| one(&[1.0 - f64::EPSILON / 2.0, last, last]);
    let told = below(LARGEST);
    table.line("prices 1 - 2^-53, M, M", &told, "refused 5 at 0 0");
    let told = below(LARGEST.next_down());
    let should_be = "1.7976931348623157e308 0.0";
    table.line("and the number below M", &told, should_be);
    let told = two([[2.0, 8.0], [1.0, 8.0], [4.0, 2.0]]);
    table.line("prices 2 8, 1 8, 4 2", &told, "-0.5 0.0 3.0 -0.75");

    // Quotient, then minus 1; the difference over the price before has other bits.
    let (_, returns) = Prices::new(&[100.0, 110.0, 99.0], 1).answered();
    let told = format!(
        "{:016X} {:016X}",
        returns[0].to_bits(),
        returns[1].to_bits()
    );
    let should_be = "3FB99999999999A0 BFB9999999999998";
    table.line("prices 100, 110, 99", &told, should_be);

    let input = Prices::new(&[1.0, 1e200, 1.0], 1);
    table.line("prices 1, 1e200, 1", &input.told(), "1e200 -1.0");
    let (_, returns) = input.answered();
    let told = Input::covariance(&returns[..2], 1, Settings::of(Estimate::Sample)).told();
    table.line("their covariance", &told, "refused 6");
}

/// Prices that are all 1, with slices that fit the counts.
fn ones(n: usize, rows: usize) -> Prices {
    Prices {
        n,
        rows,
        ..Prices::new(&vec![1.0; n * rows], n.max(1))
    }
}

/// Whether the call accepts, or its refusal.
fn verdict(input: &Prices) -> String {
    match input.answered().0 {
        Ok(()) => "accepted".to_string(),
        Err(refusal) => refusal.told(),
    }
}

fn shapes(table: &mut Table) {
    let mut line = |n: usize, rows: usize, should_be| {
        let what = format!("prices, {n} × {rows}");
        table.line(&what, &verdict(&ones(n, rows)), should_be);
    };
    line(1, 3, "accepted");
    line(24, 4097, "accepted");
    line(1, 4098, "refused 2");
    line(24, 4098, "refused 2");
    line(25, 4097, "refused 2");
    line(25, 3, "refused 2");
    line(1, 2, "refused 3 at 2");
    line(24, 1, "refused 3 at 1");
    line(1, 0, "refused 3 at 0");
    line(25, 2, "refused 2");
    line(0, 3, "refused 1");
    line(0, 4098, "refused 1");

    // Counts beside three rows of NaN, whatever else is wrong.
    let most = usize::MAX;
    for (n, rows, should_be) in [
        (0, most, "refused 1"),
        (0, 0, "refused 1"),
        (most, most, "refused 2"),
        (1, most, "refused 2"),
        (1 << 32, 1 << 32, "refused 2"),
        (1, 2, "refused 3 at 2"),
        (1, 4, "refused 4"),
        (2, 3, "refused 4"),
    ] {
        let nan = Prices::new(&[NAN; 3], 1);
        let what = format!("NaN for prices, {n} × {rows}");
        table.line(&what, &Prices { n, rows, ..nan }.told(), should_be);
    }
}

fn lengths(table: &mut Table) {
    let with = |prices: usize, returns: usize| {
        let prices = Prices {
            prices: vec![3.0; prices],
            returns: vec![0.25; returns],
            ..ones(2, 3)
        };
        verdict(&prices)
    };
    table.line("6 prices, 4 returns", &with(6, 4), "accepted");
    table.line("6 prices, 100 returns", &with(6, 100), "accepted");
    table.line("6 prices, 3 returns", &with(6, 3), "refused 4");
    table.line("6 prices, no returns", &with(6, 0), "refused 4");
    table.line("5 prices", &with(5, 4), "refused 4");
    table.line("7 prices", &with(7, 4), "refused 4");
    table.line("no prices", &with(0, 4), "refused 4");
}

fn kept(table: &mut Table) {
    let after = |prices: &[f64]| {
        let returns = vec![-7.0, -8.0, -9.0];
        let input = Prices {
            returns,
            ..Prices::new(prices, 1)
        };
        format!("{:?}", input.answered().1)
    };
    let told = after(&[1.0, 2.0, 6.0]);
    table.line("a longer return slice", &told, "[1.0, 2.0, -9.0]");
    let before = "[-7.0, -8.0, -9.0]";
    table.line("after 5 for a price", &after(&[1.0, 2.0, NAN]), before);
    table.line("after 16", &after(&[1.0, 2.0, 0.0]), before);
    table.line("after 5 for a return", &after(&[1.0, LEAST, 1.0]), before);
    table.line("after 3", &after(&[1.0, 2.0]), before);
    table.line("after 4", &after(&[1.0, 2.0, 4.0, 8.0, 16.0]), before);
}
