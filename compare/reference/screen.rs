// Document 01, 'The exam program', with document 02, Paper 3: the screen number.

/// From this size on a number is shown as `big`, whatever it would round to.
const BIG: f64 = 2147483648.0;

/// No binary64 number has more decimals.
const ALL_DECIMALS: usize = 1074;

/// The exact value rounded to the nearest ten-thousandth, a half away from zero. Rust prints every
/// decimal of a number where so many are asked for: the fifth tells whether half a ten-thousandth or
/// more stands behind the fourth.
pub fn screen(x: f64) -> String {
    if x.is_nan() || x.abs() >= BIG {
        return "big".to_string();
    }
    let exact = format!("{:.ALL_DECIMALS$}", x.abs());
    let (whole, decimals) = exact.split_once('.').expect("a point before the decimals");
    let cut: u64 = [whole, &decimals[..4]].concat().parse().expect("digits");
    let rounded = cut + u64::from(decimals.as_bytes()[4] >= b'5');
    let minus = if x < 0.0 && rounded > 0 { "-" } else { "" };
    format!("{minus}{}.{:04}", rounded / 10_000, rounded % 10_000)
}
